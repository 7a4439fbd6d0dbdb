cat "$(dirname "$0")/../../../examples/windows.trace"
