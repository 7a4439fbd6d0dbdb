printf 'melt 1\nthreads 1\nglobals 1\nthread 0\n'
yes $'new 0 1 0\ngload 1 0\nstore 0 0 1\ngstore 0 0' | head -n 800000
echo 'gload 2 0'
yes 'load 2 2 0' | head -n 200001
echo done
