printf '\0\0\0\0\0\0\0\0'                # word 0, which is not used
printf '\001\001\0\0\001\0\0\0'          # a Body, one slot, no number words, home 1
printf '\0\0\0\0\0\0\0\0'
printf '\023\0\0\0\0\0\0\0'              # home 4, which is 4 * 4 + 3
printf '\002\0\001\0\004\0\0\0'          # a Stub, no slots, one number word, home 4
printf '\001\0\0\0\0\0\0\0'              # scion 1
