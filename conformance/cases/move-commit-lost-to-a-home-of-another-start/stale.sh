printf '\0\0\0\0\0\0\0\0'                # word 0, which is not used
printf '\002\0\002\0\001\0\0\0'          # a Stub, no slots, two number words, home 1, whose search starts at place 1
printf '\001\0\0\0\0\0\0\0'              # scion 1: it was committed to place 1
printf '\0\0\0\0\0\0\0\0'
printf '\0\0\0\0\0\0\0\0'
printf '\002\0\003\0\005\0\0\0'          # a Stub, no slots, three number words, home 5, whose search starts at place 1 too
printf '\003\0\0\0\0\0\0\0'              # scion 3: it was committed to place 3
printf '\0\0\0\0\0\0\0\0'
printf '\0\0\0\0\0\0\0\0'
printf '\0\0\0\0\0\0\0\0'
printf '\002\0\0\0\012\0\0\0'            # a Stub, no slots, no number words, home 10, whose search starts at place 2
printf '\002\0\0\0\0\0\0\0'              # scion 2: it was committed to place 2
