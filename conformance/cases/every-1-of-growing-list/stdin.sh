cat "$(dirname "$0")/../../../examples/growing-list.trace"
