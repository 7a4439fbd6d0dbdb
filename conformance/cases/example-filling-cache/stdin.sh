cat "$(dirname "$0")/../../../examples/filling-cache.trace"
