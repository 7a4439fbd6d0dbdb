echo 'thread 0'
yes 'ok' | head -n 1048576
echo 'end done'
