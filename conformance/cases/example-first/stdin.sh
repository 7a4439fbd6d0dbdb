cat "$(dirname "$0")/../../../examples/first.trace"
