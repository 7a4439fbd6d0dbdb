cat "$(dirname "$0")/../../../examples/four-threads.trace"
