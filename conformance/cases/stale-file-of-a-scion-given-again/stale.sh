printf '\0\0\0\0\0\0\0\0'                # word 0, which is not used
printf '\001\001\0\0\001\0\0\0'          # a Body, one slot, no number words, home 1: the object that global 0 had first
printf '\0\0\0\0\0\0\0\0'
printf '\053\0\0\0\0\0\0\0'              # home 10, which is 10 * 4 + 3
printf '\001\001\0\0\004\0\0\0'          # a Body, one slot, no number words, home 4: the object of global 1
printf '\0\0\0\0\0\0\0\0'
printf '\067\0\0\0\0\0\0\0'              # home 13, which is 13 * 4 + 3
printf '\001\001\0\0\007\0\0\0'          # a Body, one slot, no number words, home 7: the object of global 2
printf '\0\0\0\0\0\0\0\0'
printf '\103\0\0\0\0\0\0\0'              # home 16, which is 16 * 4 + 3
printf '\001\001\0\0\012\0\0\0'          # a Body, one slot, no number words, home 10: it had scion 1, and was found last
printf '\0\0\0\0\0\0\0\0'
printf '\177\0\0\0\0\0\0\0'              # home 31, which is 31 * 4 + 3
printf '\001\001\0\0\015\0\0\0'          # a Body, one slot, no number words, home 13: it had scion 2 first
printf '\0\0\0\0\0\0\0\0'
printf '\0\0\0\0\0\0\0\0'                # an empty slot
printf '\001\001\0\0\020\0\0\0'          # a Body, one slot, no number words, home 16: it had scion 3
printf '\0\0\0\0\0\0\0\0'
printf '\163\0\0\0\0\0\0\0'              # home 28, which is 28 * 4 + 3
printf '\001\001\0\0\023\0\0\0'          # a Body, one slot, no number words, home 19: the object of global 0
printf '\0\0\0\0\0\0\0\0'
printf '\133\0\0\0\0\0\0\0'              # home 22, which is 22 * 4 + 3
printf '\001\001\0\0\026\0\0\0'          # a Body, one slot, no number words, home 22: it had scion 2 after it, which was given last, and was found first
printf '\0\0\0\0\0\0\0\0'
printf '\147\0\0\0\0\0\0\0'              # home 25, which is 25 * 4 + 3
printf '\001\0\001\0\031\0\0\0'          # a Body, no slots, one number word, home 25
printf '\0\0\0\0\0\0\0\0'
printf '\010\0\0\0\0\0\0\0'
printf '\001\0\001\0\034\0\0\0'          # a Body, no slots, one number word, home 28
printf '\0\0\0\0\0\0\0\0'
printf '\011\0\0\0\0\0\0\0'
printf '\001\0\001\0\037\0\0\0'          # a Body, no slots, one number word, home 31
printf '\0\0\0\0\0\0\0\0'
printf '\007\0\0\0\0\0\0\0'
