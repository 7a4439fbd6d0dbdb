ln -s missing/melt.stale melt.stale
