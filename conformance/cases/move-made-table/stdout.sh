"$(dirname "$0")/../../generator" table 3 800 2 | python3 -c '
import sys
count = total = number = 0
heads = {}
for line in sys.stdin:
    word, *fields = line.split()
    if word == "thread":
        print(line, end="")
        count, total, heads = 0, 0, {}
    elif word == "done":
        print(f"replies {count}", f"sum {total}", "end done", sep="\n")
    elif word == "put":
        number = int(fields[2])
    elif word == "store" and fields[0] == "0":
        heads[fields[1]] = number
    elif word == "load":
        found = heads.get(fields[2])
    elif word == "get":
        total += found or 0
    count += word not in ("melt", "threads", "globals", "thread", "done")
'
