"$(dirname "$0")/../../generator" queue 9 100000 1
