cat "$(dirname "$0")/../../../examples/chained-table.trace"
