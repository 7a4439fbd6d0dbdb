[[ $(stat --format %a melt.stale) == 600 ]]
