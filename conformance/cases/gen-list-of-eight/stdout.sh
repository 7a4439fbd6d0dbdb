"$(dirname "$0")/../../generator" list 12 30 8
