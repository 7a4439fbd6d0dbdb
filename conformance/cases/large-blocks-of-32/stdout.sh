echo 'thread 0'
yes 'nil' | head -n 1048576
echo 'end done'
