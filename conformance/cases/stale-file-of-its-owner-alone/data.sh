umask 0
printf old >melt.stale
