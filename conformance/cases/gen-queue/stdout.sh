"$(dirname "$0")/../../generator" queue 7 40 2
