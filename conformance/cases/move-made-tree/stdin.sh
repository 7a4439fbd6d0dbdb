"$(dirname "$0")/../../generator" tree 3 600 2
