"$(dirname "$0")/../../generator" list 7 2000 3
