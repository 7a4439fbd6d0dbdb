cat "$(dirname "$0")/../../../examples/open-buffers.trace"
