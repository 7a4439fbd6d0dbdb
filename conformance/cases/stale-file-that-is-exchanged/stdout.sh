# 7 times the five operations of a new node, 2 drops, and 600 walks of 15 operations along the numbers 1000 to 1006
printf 'thread 0\nreplies %d\nsum %d\nend done\n' $((5 * 7 + 2 + 600 * 15)) $((600 * (7 * (1000 + 1006) / 2)))
