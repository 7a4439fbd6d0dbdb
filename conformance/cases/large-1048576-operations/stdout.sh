echo 'thread 0'
yes 'yes' | head -n 1048576
echo 'end done'
