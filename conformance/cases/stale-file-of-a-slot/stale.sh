printf '\0\0\0\0\0\0\0\0'                # word 0, which is not used
printf '\001\002\0\0\001\0\0\0'          # a Body, two slots, no number words, home 1
printf '\0\0\0\0\0\0\0\0'
printf '\0\0\0\0\0\0\0\0'                # an empty slot
printf '\027\0\0\0\0\0\0\0'              # home 5, which is 5 * 4 + 3
printf '\001\0\001\0\005\0\0\0'          # a Body, no slots, one number word, home 5
printf '\0\0\0\0\0\0\0\0'
printf '\377\377\377\377\377\377\377\377'
