printf '\0\0\0\0\0\0\0\0'                # word 0, which is not used
printf '\002\0\001\0\001\0\0\0'          # a Stub, no slots, one number word, home 1
printf '\002\0\0\0\0\0\0\0'              # scion 2: it was committed to place 1
printf '\007\0\0\0\0\0\0\0'
printf '\002\0\0\0\004\0\0\0'            # a Stub, no slots, no number words, home 4
printf '\001\0\0\0\0\0\0\0'              # scion 1: it was committed to place 0
