ln -s /dev/full melt.stale
