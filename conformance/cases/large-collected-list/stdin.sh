printf 'melt 1\nthreads 1\nglobals 1\nthread 0\n'
printf 'repeat 200000\nnew 0 1 1\ngload 1 0\nstore 0 0 1\ngstore 0 0\nend\n'
printf 'drop 0\ndrop 1\nrepeat 3\ncollect\nend\n'
printf 'gload 2 0\nrepeat 200001\nload 2 2 0\nend\ndone\n'
