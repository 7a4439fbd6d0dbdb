cat "$(dirname "$0")/../../../examples/mailbox.trace"
