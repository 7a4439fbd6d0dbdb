printf '\0\0\0\0\0\0\0\0'                # word 0, which is not used
printf '\002\0\002\0\001\0\0\0'          # a Stub, no slots, two number words, home 1, which came back first
printf '\001\0\0\0\0\0\0\0'              # scion 1: it was committed to place 1
printf '\007\0\0\0\0\0\0\0'
printf '\0\0\0\0\0\0\0\0'
printf '\002\0\0\0\005\0\0\0'            # a Stub, no slots, no number words, home 5, which came back second
printf '\002\0\0\0\0\0\0\0'              # scion 2: it was committed to place 2
