"$(dirname "$0")/../../generator" queue 3 800 2
