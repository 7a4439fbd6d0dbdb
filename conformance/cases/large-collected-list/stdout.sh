echo 'thread 0'
printf 'ok\nnull\nok\nok\n'
yes $'ok\nref\nok\nok' | head -n 799996
yes ok | head -n 5
echo ref
yes ref | head -n 199999
printf 'null\nnil\nend done\n'
