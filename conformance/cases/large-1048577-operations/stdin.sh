printf 'melt 1\nthreads 1\nglobals 0\nthread 0\n'
yes 'same 0 0' | head -n 1048577
echo done
