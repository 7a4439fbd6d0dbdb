"""The trace: its lines, what its replay answers, and the identities that were given. It grows by whole windows."""
MOST_OPERATIONS = 1_048_576
MOST_BYTES = 16_777_216
HEAD = "melt 1\nthreads 1\nglobals 64\nthread 0\n"
END = "done\n"
RECORDER = "(recorder)"    # the kind of objects that serve the trace, and not the program


class Row:
    """A cell that was made: of which kind of object, or the head whose cell it is; its shape; where the program made the object; and
    when it was made, last used, and gone. Times are uses of the program."""
    __slots__ = ("kind", "head", "slots", "numbers", "place", "made", "used", "gone", "held")

    def __init__(self, kind, head, slots, numbers, place, made):
        self.kind, self.head, self.slots, self.numbers, self.place, self.made = kind, head, slots, numbers, place, made
        self.used = self.gone = self.held = None


class Lines:
    """The lines of a window, which are all taken or none."""

    def __init__(self, trace, uses):
        self.trace, self.uses = trace, uses
        self.lines, self.rows, self.read, self.gone = [], [], [], []
        self.sum = 0

    def new(self, register, slots, numbers, kind=RECORDER, head=None, place=None):
        """Makes a cell in a register, and answers its identity, which stands in number word 0."""
        self.rows.append(Row(kind, head, slots, numbers, place, self.uses))
        identity = len(self.trace.rows) + len(self.rows)
        self.lines.append(f"new {register} {slots} {numbers}")
        self.lines.append(f"put {register} 0 {identity}")
        return identity

    def read_back(self, register, identity):
        self.lines.append(f"get {register} 0")
        self.sum += identity
        self.read.append(identity)

    def end(self, identity):
        """The cell is not reached any more."""
        self.gone.append(identity)


class Trace:
    def __init__(self, most_operations, most_bytes):
        self.parts, self.rows = [], []
        self.windows = self.operations = self.sum = self.uses = 0
        self.bytes = len(HEAD) + len(END)
        self.most_operations, self.most_bytes = most_operations, most_bytes

    def take(self, lines):
        """Adds a window, if there is room for it."""
        text = "\n".join([*lines.lines, ""])
        if self.operations + len(lines.lines) > self.most_operations or self.bytes + len(text) > self.most_bytes:
            return False
        self.windows += 1
        self.parts.append(text)
        self.rows += lines.rows
        self.operations += len(lines.lines)
        self.bytes += len(text)
        self.sum = (self.sum + lines.sum) % 2 ** 64
        self.uses = lines.uses
        for identity in lines.read:
            self.rows[identity - 1].used = lines.uses
        for identity in lines.gone:
            self.rows[identity - 1].gone = lines.uses
        return True

    def texts(self):
        yield HEAD
        yield from self.parts
        yield END

    def expected(self):
        """What a replay prints with --quiet."""
        return f"thread 0\nreplies {self.operations}\nsum {self.sum}\nend done\n"
