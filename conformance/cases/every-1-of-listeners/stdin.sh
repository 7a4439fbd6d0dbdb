cat "$(dirname "$0")/../../../examples/listeners.trace"
