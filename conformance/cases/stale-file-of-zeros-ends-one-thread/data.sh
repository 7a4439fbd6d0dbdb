ln -s /dev/zero melt.stale
