cat "$(dirname "$0")/../../../examples/unread-log.trace"
