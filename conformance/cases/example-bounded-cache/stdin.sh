cat "$(dirname "$0")/../../../examples/bounded-cache.trace"
