"$(dirname "$0")/../../generator" tree 3 600 2 | python3 -c '
import sys
count = 0
for line in sys.stdin:
    word = line.split()[0]
    if word == "thread":
        print(line, end="")
        count = 0
    elif word == "done":
        print(f"replies {count}", "sum 0", "end done", sep="\n")
    count += word not in ("melt", "threads", "globals", "thread", "done")
'
