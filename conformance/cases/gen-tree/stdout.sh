"$(dirname "$0")/../../generator" tree 7 40 1
