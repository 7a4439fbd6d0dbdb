"""The text of a trace, and what can be counted in it without running it.

It is counted once `melt` has taken it, so nothing is judged here: each line is what its first field says.
"""
from recording.trace import MOST_BYTES, MOST_OPERATIONS

OPERATIONS = {b"new", b"load", b"store", b"get", b"put", b"gload", b"gstore", b"same", b"copy", b"drop", b"collect"}
LOADS = {b"load", b"gload"}
COLLECT = b"collect\n"


class Trace:
    def __init__(self, data):
        self.data = data
        self.operations = self.loads = self.words = 0      # with all blocks written out; words are those of all new objects
        self.dones = []        # the byte at which the line that ends a program begins, for each thread

    @property
    def threads(self):
        return len(self.dones)

    def count(self):
        """Reads the trace."""
        times, at = [1], 0
        for line in self.data.split(b"\n"):
            word, *fields = line.split() or [b""]
            if word in OPERATIONS:
                self.operations += times[-1]
                self.loads += times[-1] if word in LOADS else 0
                self.words += times[-1] * (2 + int(fields[1]) + int(fields[2])) if word == b"new" else 0
            elif word == b"repeat":
                times.append(times[-1] * int(fields[0]))
            elif word == b"end":
                times.pop()
            elif word == b"done":
                self.dones.append(at)
            at += len(line) + 1

    def settled(self):
        """The trace with a `collect` after the last operation of each thread, or None where it has no room for them.

        What came back is settled by the next collection. Which thread ends last is not known beforehand, so each has one."""
        if self.operations + self.threads > MOST_OPERATIONS or len(self.data) + self.threads * len(COLLECT) > MOST_BYTES:
            return None
        borders = [0, *self.dones, len(self.data)]
        return COLLECT.join(self.data[begin:end] for begin, end in zip(borders, borders[1:]))
