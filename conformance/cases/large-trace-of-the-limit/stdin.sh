printf 'melt 1\nthreads 1\nglobals 0\nthread 0\n'
yes '   drop      15     ' | head -n 400000
yes '# a comment, and' | head -n 490000
printf '%12s' done
head -c $((16777216 - 36 - 12 - 400000 * 21 - 490000 * 17)) /dev/zero | tr '\0' ' '
