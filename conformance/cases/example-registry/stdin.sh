cat "$(dirname "$0")/../../../examples/registry.trace"
