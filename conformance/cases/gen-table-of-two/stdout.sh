"$(dirname "$0")/../../generator" table 15 70 2
