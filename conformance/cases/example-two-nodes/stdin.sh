cat "$(dirname "$0")/../../../examples/two-nodes.trace"
