"$(dirname "$0")/../../generator" list 1 1000 2
