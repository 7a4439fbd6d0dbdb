"$(dirname "$0")/../../generator" queue 13 30 8
