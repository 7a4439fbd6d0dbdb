printf '\0\0\0\0\0\0\0\0'                # word 0, which is not used
printf '\001\001\0\0\001\0\0\0'          # a Body, one slot, no number words, home 1: the object that global 0 had first
printf '\0\0\0\0\0\0\0\0'
printf '\037\0\0\0\0\0\0\0'              # home 7, which is 7 * 4 + 3
printf '\001\001\0\0\004\0\0\0'          # a Body, one slot, no number words, home 4: the object of global 1
printf '\0\0\0\0\0\0\0\0'
printf '\047\0\0\0\0\0\0\0'              # home 9, which is 9 * 4 + 3
printf '\001\0\0\0\007\0\0\0'            # a Body, no slots, no number words, home 7: it had scion 1
printf '\0\0\0\0\0\0\0\0'
printf '\002\0\0\0\011\0\0\0'            # a Stub, no slots, no number words, home 9
printf '\002\0\0\0\0\0\0\0'              # scion 2
printf '\001\001\0\0\013\0\0\0'          # a Body, one slot, no number words, home 11: the object of global 0
printf '\0\0\0\0\0\0\0\0'
printf '\073\0\0\0\0\0\0\0'              # home 14, which is 14 * 4 + 3
printf '\002\0\0\0\016\0\0\0'            # a Stub, no slots, no number words, home 14
printf '\001\0\0\0\0\0\0\0'              # scion 1
