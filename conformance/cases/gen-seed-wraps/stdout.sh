"$(dirname "$0")/../../generator" list 18446744073709551615 3 2
