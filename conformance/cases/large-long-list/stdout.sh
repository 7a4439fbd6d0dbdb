echo 'thread 0'
printf 'ok\nnull\nok\nok\n'
yes $'ok\nref\nok\nok' | head -n 799996
echo ref
yes ref | head -n 199999
echo null
echo nil
echo 'end done'
