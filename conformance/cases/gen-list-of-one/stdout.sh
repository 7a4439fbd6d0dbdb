"$(dirname "$0")/../../generator" list 11 30 1
