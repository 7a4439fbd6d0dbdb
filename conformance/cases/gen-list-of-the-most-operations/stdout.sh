"$(dirname "$0")/../../generator" list 5 18722 8
