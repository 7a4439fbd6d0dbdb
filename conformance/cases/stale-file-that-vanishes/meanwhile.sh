exec python3 - <<'SCRIPT'
import contextlib
import os
import time

print("begun", flush=True)
while True:
    with contextlib.suppress(FileNotFoundError):
        os.remove("melt.stale")
    time.sleep(0.001)
SCRIPT
