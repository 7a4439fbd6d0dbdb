printf '%s\n' 'thread 0' ok ok
found=null
for ((round = 0; round < 1000; round++)); do
    printf '%s\n' ok ok ok "$found" ok ok ok ref ref 11 ok ok ok ok
    found=ref
done
echo 'end done'
