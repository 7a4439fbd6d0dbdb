python3 - <<'END'
size = 1000
print("thread 0")
for k in range(size):
    print("ok", "ok", "ok", "null" if k == 0 else "ref", "ok", "ok", k, sep="\n")
print("ref", size - 1, sep="\n")
for k in range(size - 2, size - 9, -1):
    print("ref", k, sep="\n")
print("ok", "ok", "end done", sep="\n")
END
