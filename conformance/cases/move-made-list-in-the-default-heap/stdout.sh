python3 - <<'END'
size, threads = 2000, 3
for thread in range(threads):
    print(f"thread {thread}", f"replies {7 * size + 18}", f"sum {sum(range(size)) + sum(range(size - 8, size))}", "end done", sep="\n")
END
