exec python3 - <<'SCRIPT'
import os
import time

print("begun", flush=True)
while True:
    with open("other", "wb") as file:
        file.write(b"\xff" * 4096)
    os.replace("other", "melt.stale")
    time.sleep(0.001)
SCRIPT
