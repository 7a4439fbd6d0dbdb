echo 'thread 0'
yes 'ok' | head -n 400000
echo 'end done'
