ln -s /dev/null melt.stale
