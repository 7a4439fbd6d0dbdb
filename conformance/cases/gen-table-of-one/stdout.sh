"$(dirname "$0")/../../generator" table 14 70 1
