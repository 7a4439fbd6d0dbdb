# 10 times the five operations of a new node, 2 drops, and 600 walks of 21 operations along the numbers 10000 to 10009
printf 'thread 0\nreplies %d\nsum %d\nend done\n' $((5 * 10 + 2 + 600 * 21)) $((600 * (10 * (10000 + 10009) / 2)))
