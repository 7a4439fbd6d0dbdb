"$(dirname "$0")/../../generator" tree 17 45 8
