printf 'melt 1\nthreads 1\nglobals 0\n'
yes 'order 0 1' | head -n 65536
printf 'order 0 x\nthread 0\ndone\n'
