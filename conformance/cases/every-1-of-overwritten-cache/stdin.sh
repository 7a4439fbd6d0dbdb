cat "$(dirname "$0")/../../../examples/overwritten-cache.trace"
