python3 - <<'END'
nodes, walks = 8, 5
print("thread 0", f"replies {5 * nodes + 2 + walks * (1 + 2 * nodes)}", f"sum {walks * sum(range(nodes))}", "end done", sep="\n")
END
