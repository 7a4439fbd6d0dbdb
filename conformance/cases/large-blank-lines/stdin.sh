head -c 16000000 /dev/zero | tr '\0' '\n'
