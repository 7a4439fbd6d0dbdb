"""The text of a trace, read line by line: a script, or the first bad line and what is wrong with it."""
from dataclasses import dataclass, field
from typing import NamedTuple

LARGEST_INPUT = 16_777_216
LARGEST_NUMBER = 2**64 - 1
MOST_OPERATIONS = 1_048_576
MOST_ORDERS = 65_536
DEEPEST_BLOCK = 4
REGISTERS = 16


def number_of(text):
    """The number that decimal digits spell without a leading zero, up to 64 bits; or None."""
    if not text.isascii() or not text.isdigit() or (text[0] == "0" and text != "0") or len(text) > 20:
        return None
    number = int(text)
    return number if number <= LARGEST_NUMBER else None


class Refusal(Exception):
    """The first bad line of an input that is no trace, and what is wrong with it."""

    def __init__(self, line, reason):
        super().__init__(line, reason)
        self.line, self.reason = line, reason


class Wrong(Exception):
    """What is wrong with the line that is being read."""


class Operation(NamedTuple):
    word: str
    numbers: tuple

    def __str__(self):
        return " ".join([self.word, *map(str, self.numbers)])


@dataclass
class Block:
    times: int
    lines: list = field(default_factory=list)


@dataclass
class Script:
    threads: int = 0
    globals: int = 0
    orders: list = field(default_factory=list)
    programs: list = field(default_factory=list)


# Each field of a line: r a register, p a number of slots or words, i which of them, g a global, v any number,
# n how often, t a thread.
FIELDS = {
    "new": "rpp", "load": "rri", "store": "rir", "get": "ri", "put": "riv", "gload": "rg", "gstore": "gr",
    "same": "rr", "copy": "rr", "drop": "r", "collect": "",
    "repeat": "n", "end": "", "done": "", "order": "tn", "thread": "v", "melt": None, "threads": None, "globals": None,
}
OPERATIONS = ("new", "load", "store", "get", "put", "gload", "gstore", "same", "copy", "drop", "collect")
VISIBLE = bytes(range(0x20, 0x7F))


def operations_in(lines):
    """How many operations these lines have, blocks written out."""
    return sum(line.times * operations_in(line.lines) if isinstance(line, Block) else 1 for line in lines)


def written_out(lines):
    """The operations of these lines, one after the other, blocks written out."""
    for line in lines:
        if isinstance(line, Block):
            for _ in range(line.times):
                yield from written_out(line.lines)
        else:
            yield line


class Reader:
    """Reads a trace line by line."""

    def __init__(self):
        self.script = Script()
        self.heading = 0      # how many of the first three lines have been read
        self.open = None      # the blocks that are open in the program, the program itself first; None outside
        self.operations = 0   # of the programs that are done
        self.said = {}        # what the lines say that were read after the first three: a word and its numbers

    def is_over(self):
        return self.heading == 3 and self.open is None and len(self.script.programs) == self.script.threads

    def line(self, raw):
        """Takes one line. What it says is not found out again if it was read before; where it may stand is."""
        if raw in self.said:
            word, numbers = self.said[raw]
            if not self.may_stand(word):
                raise Wrong(6)
            self.take(word, numbers)
            return
        if raw.translate(None, VISIBLE):
            raise Wrong(2)
        fields = [part for part in raw.decode("ascii").split(" ") if part]
        if not fields or fields[0].startswith("#"):
            return
        if self.heading < 3:
            self.head(fields)
            return
        word = fields[0]
        if not self.may_stand(word):
            raise Wrong(6)
        if len(fields) - 1 != len(FIELDS[word]):
            raise Wrong(7)
        numbers = tuple(self.number(kind, text) for kind, text in zip(FIELDS[word], fields[1:]))
        self.said[raw] = word, numbers
        self.take(word, numbers)

    def take(self, word, numbers):
        """Takes what a line says."""
        if word in OPERATIONS:
            self.open[-1].lines.append(Operation(word, numbers))
        else:
            getattr(self, word)(*numbers)

    def head(self, fields):
        """Takes one of the first three lines that are not skipped."""
        word, low, high = (("melt", 1, 1), ("threads", 1, 8), ("globals", 0, 64))[self.heading]
        number = number_of(fields[1]) if len(fields) == 2 and fields[0] == word else None
        if number is None or not low <= number <= high:
            raise Wrong(3 + self.heading)
        if word != "melt":
            setattr(self.script, word, number)
        self.heading += 1

    def may_stand(self, word):
        """Whether a line with this word may stand here."""
        if FIELDS.get(word) is None or self.is_over():
            return False
        if self.open is None:
            return word == "thread" or (word == "order" and not self.script.programs)
        if word == "end":
            return len(self.open) > 1
        if word == "done":
            return len(self.open) == 1
        return word == "repeat" or word in OPERATIONS

    def number(self, kind, text):
        """The number that a field spells, in the range of its kind."""
        number = number_of(text)
        if number is None:
            raise Wrong(8)
        if kind == "r" and number >= REGISTERS:
            raise Wrong(9)
        low, high = {"r": (0, 15), "p": (0, 62), "i": (0, 63), "g": (0, self.script.globals - 1), "n": (1, 1_048_576),
                     "t": (0, self.script.threads - 1), "v": (0, LARGEST_NUMBER)}[kind]
        if not low <= number <= high:
            raise Wrong(10)
        return number

    def order(self, thread, events):
        if len(self.script.orders) == MOST_ORDERS:
            raise Wrong(10)
        self.script.orders.append((thread, events))

    def thread(self, thread):
        if thread != len(self.script.programs):
            raise Wrong(10)
        self.open = [Block(1)]

    def repeat(self, times):
        if len(self.open) > DEEPEST_BLOCK:
            raise Wrong(11)
        block = Block(times)
        self.open[-1].lines.append(block)
        self.open.append(block)

    def end(self):
        if not self.open[-1].lines:
            raise Wrong(12)
        self.open.pop()

    def done(self):
        program = self.open[0].lines
        self.operations += operations_in(program)
        if self.operations > MOST_OPERATIONS:
            raise Wrong(13)
        self.script.programs.append(program)
        self.open = None


def script_of(data):
    """What the bytes say. Raises Refusal where they are no trace."""
    if len(data) > LARGEST_INPUT:
        raise Refusal(0, 1)
    lines = data.split(b"\n")
    if not lines[-1]:
        lines.pop()
    reader = Reader()
    for number, line in enumerate(lines, 1):
        try:
            reader.line(line)
        except Wrong as wrong:
            raise Refusal(number, wrong.args[0]) from None
    if not reader.is_over():
        raise Refusal(len(lines) + 1, 14)
    return reader.script
