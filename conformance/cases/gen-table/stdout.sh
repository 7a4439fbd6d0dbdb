"$(dirname "$0")/../../generator" table 7 40 8
