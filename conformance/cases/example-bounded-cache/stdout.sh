echo 'thread 0'
yes ok | head -n 6002
printf 'ref\n1\nref\n2\nyes\nend done\n'
