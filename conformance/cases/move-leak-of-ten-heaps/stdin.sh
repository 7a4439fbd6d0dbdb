python3 - <<'END'
print("melt 1", "threads 1", "globals 1", "thread 0", sep="\n")
for node in range(160):
    print("new 0 1 1", f"put 0 0 {node}", "gload 1 0", "store 0 0 1", "gstore 0 0", sep="\n")
print("drop 0", "gload 1 0", "repeat 160", "get 1 0", "load 1 1 0", "end", "done", sep="\n")
END
