printf 'thread 0\n'
yes ok | head -n 1048575
printf 'end done\nthread 1\nnull\nend done\n'
