# 9 times the five operations of a new node, 2 drops, and 600 walks of 19 operations along the numbers 100 to 108
printf 'thread 0\nreplies %d\nsum %d\nend done\n' $((5 * 9 + 2 + 600 * 19)) $((600 * (9 * (100 + 108) / 2)))
