printf 'melt 1\nthreads 1\nglobals 64\nthread 0\n'
yes 'store 15 63 15' | head -n 1048576
echo done
