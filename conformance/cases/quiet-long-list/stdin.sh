"$(dirname "$0")/../../generator" list 1 10000 2
