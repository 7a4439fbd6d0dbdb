printf '\0\0\0\0\0\0\0\0'                # word 0, which is not used
printf '\001\0\001\0\001\0\0\0'          # a Body, no slots, one number word, home 1
printf '\0\0\0\0\0\0\0\0'
printf '\007\0\0\0\0\0\0\0'
