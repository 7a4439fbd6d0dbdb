printf 'melt 1\nthreads 1\nglobals 1\nthread 0\n'
printf 'new 0 0 2\ngstore 0 0\n'
yes $'new 0 1 0\ngload 1 0\nstore 0 0 1\ngstore 0 0' | head -n 87376
printf 'new 2 0 0\nget 0 0\ndone\n'
