# 8 times the five operations of a new node, 2 drops, and 600 walks of 17 operations along the numbers 0 to 7
printf 'thread 0\nreplies %d\nsum %d\nend done\n' $((5 * 8 + 2 + 600 * 17)) $((600 * (8 * (0 + 7) / 2)))
