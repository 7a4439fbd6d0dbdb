printf '\0\0\0\0\0\0\0\0'                # word 0, which is not used
printf '\001\001\0\0\001\0\0\0'          # a Body, one slot, no number words, home 1: the object of global 0
printf '\0\0\0\0\0\0\0\0'
printf '\037\0\0\0\0\0\0\0'              # home 7, which is 7 * 4 + 3
printf '\001\001\0\0\004\0\0\0'          # a Body, one slot, no number words, home 4: the object of global 1
printf '\0\0\0\0\0\0\0\0'
printf '\053\0\0\0\0\0\0\0'              # home 10, which is 10 * 4 + 3
printf '\001\001\0\0\007\0\0\0'          # a Body, one slot, no number words, home 7: it had scion 1
printf '\0\0\0\0\0\0\0\0'
printf '\103\0\0\0\0\0\0\0'              # home 16, which is 16 * 4 + 3
printf '\001\001\0\0\012\0\0\0'          # a Body, one slot, no number words, home 10: it had scion 2, and was found first
printf '\0\0\0\0\0\0\0\0'
printf '\067\0\0\0\0\0\0\0'              # home 13, which is 13 * 4 + 3
printf '\001\0\001\0\015\0\0\0'          # a Body, no slots, one number word, home 13
printf '\0\0\0\0\0\0\0\0'
printf '\010\0\0\0\0\0\0\0'
printf '\001\0\001\0\020\0\0\0'          # a Body, no slots, one number word, home 16
printf '\0\0\0\0\0\0\0\0'
printf '\007\0\0\0\0\0\0\0'
