printf '%s\n' 'thread 0' ok ok
found=null
for ((round = 0; round < 1000; round++)); do
    printf '%s\n' ok ok ok "$found" ok ok ok 7 ok ok ok
    found=ref
done
echo 'end done'
