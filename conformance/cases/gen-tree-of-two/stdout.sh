"$(dirname "$0")/../../generator" tree 16 45 2
