"$(dirname "$0")/../../generator" table 3 800 2
