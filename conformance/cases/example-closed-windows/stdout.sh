printf '%s\n' 'thread 0' ok ok
for ((round = 0; round < 1000; round++)); do
    printf '%s\n' ok ok ok null ok ok ok 7 null ok ok ok ok
done
echo 'end done'
