python3 - <<'END'
print("melt 1", "threads 2", "globals 1", "order 0 200", sep="\n")
print("thread 0")
for node in range(8):
    print("new 0 1 1", f"put 0 0 {node}", "gload 1 0", "store 0 0 1", "gstore 0 0", sep="\n")
print("drop 0", "drop 1", "repeat 5", "gload 1 0", "repeat 8", "get 1 0", "load 1 1 0", "end", "end", "done", sep="\n")
print("thread 1", "repeat 100", "drop 0", "end", "repeat 5", "gload 1 0", "repeat 8", "get 1 0", "load 1 1 0", "end", "end", "done", sep="\n")
END
