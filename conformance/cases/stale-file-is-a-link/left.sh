cmp --silent target <(printf kept)
