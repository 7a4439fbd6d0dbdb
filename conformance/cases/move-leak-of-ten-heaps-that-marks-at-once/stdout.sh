python3 - <<'END'
nodes = 160
print("thread 0", f"replies {5 * nodes + 2 + 2 * nodes}", f"sum {sum(range(nodes))}", "end done", sep="\n")
END
