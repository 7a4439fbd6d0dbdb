python3 - <<'END'
nodes = 160
print("thread 0")
for node in range(nodes):
    print("ok", "ok", "ref" if node else "null", "ok", "ok", sep="\n")
print("ok", "ref", sep="\n")
for node in reversed(range(nodes)):
    print(node, "ref" if node else "null", sep="\n")
print("end done")
END
