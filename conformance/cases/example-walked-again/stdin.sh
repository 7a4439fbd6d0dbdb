cat "$(dirname "$0")/../../../examples/walked-again.trace"
