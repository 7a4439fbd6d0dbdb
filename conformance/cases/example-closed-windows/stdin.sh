cat "$(dirname "$0")/../../../examples/closed-windows.trace"
