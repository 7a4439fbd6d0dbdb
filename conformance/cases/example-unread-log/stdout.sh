printf '%s\n' 'thread 0' ok ok null ok ok
yes $'ok\nok\nref\nok\nok' | head -n 49995
echo 'end done'
