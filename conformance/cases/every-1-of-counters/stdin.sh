cat "$(dirname "$0")/../../../examples/counters.trace"
