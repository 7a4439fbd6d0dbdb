printf 'melt 1\nthreads 1\nglobals 1\nthread 0\n'
for node in {0..7}; do
  printf 'new 0 1 1\nput 0 0 %d\ngload 1 0\nstore 0 0 1\ngstore 0 0\n' $node
done
printf 'drop 0\ndrop 1\nrepeat 600\ngload 1 0\nrepeat 8\nget 1 0\nload 1 1 0\nend\nend\ndone\n'
