mkfifo melt.stale
