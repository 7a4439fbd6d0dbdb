cat "$(dirname "$0")/../../../examples/lost-addition.trace"
