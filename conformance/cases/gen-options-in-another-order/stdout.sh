"$(dirname "$0")/../../generator" tree 3 20 1
