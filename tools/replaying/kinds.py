"""The file NAME.kinds of a recording, and which of its objects a file melt.stale has on the disk.

Number word 0 of each object of a trace is its identity, which is never changed, so a Body tells whose it is. A Stub does not: its
words after the second one mean nothing, and its object may be one that never left.
"""
from typing import NamedTuple, Optional

from common.words import REFUSED, Told
from replaying.leaks import Part
from replaying.stale import BadRecord, bodies

HEAD = "kinds", "program", "window", "first", "last", "operations"
OBJECT, CELL = 10, 7           # fields of a line


class Row(NamedTuple):
    """An object of the trace: the first cell of an object of the program, or a further one, whose `head` is another identity."""
    head: int
    slots: int
    numbers: int
    made: int
    used: Optional[int]
    gone: Optional[int]
    kind: str = ""
    place: str = ""
    way: str = ""

    @property
    def words(self):
        return 2 + self.slots + self.numbers


class Kinds:
    def __init__(self, path):
        self.path = path
        with open(path, encoding="utf-8", errors="replace", newline="\n") as file:
            lines = file.read().split("\n")
        if lines.pop():
            raise Told(REFUSED, f"{path}, line {len(lines) + 1}: the file ends within it")
        values = [self.head_value(lines, number, name) for number, name in enumerate(HEAD)]
        self.first, self.last, self.operations = map(int, values[3:])
        self.rows = [self.row(number, line.split("\t")) for number, line in enumerate(lines[6:], 7)]
        for number, row in enumerate(self.rows, 7):
            if not 1 <= row.head <= len(self.rows) or self.head_of(row).head != row.head:
                raise Told(REFUSED, f"{path}, line {number}: there is no object {row.head}")

    def head_value(self, lines, number, name):
        """What one of the first six lines says. That of the program has any text, and the first is the version."""
        word, _, value = lines[number].partition(" ") if number < len(lines) else ("", "", "")
        is_right = value == "1" if name == "kinds" else name == "program" or value.isascii() and value.isdigit()
        if word != name or not is_right:
            raise Told(REFUSED, f"{self.path}, line {number + 1}: it is not that of the {name}, as tools/record writes it")
        return value

    def row(self, number, fields):
        try:
            identity, slots, numbers, made = map(int, fields[1:5])
            if identity != number - 6:
                raise ValueError
            if fields[0] == "object" and len(fields) == OBJECT:
                return Row(identity, slots, numbers, made, count(fields[5]), count(fields[6]), *fields[7:])
            if fields[0] == "cell" and len(fields) == CELL and int(fields[5]) != identity:
                return Row(int(fields[5]), slots, numbers, made, None, count(fields[6]))
            raise ValueError
        except ValueError:
            raise Told(REFUSED, f"{self.path}, line {number}: it is no line of an object, as tools/record writes it") from None

    def head_of(self, row):
        return self.rows[row.head - 1]

    def on_disk(self, words):
        """The identities of the objects of which a file of these words has Bodies."""
        found = set()
        for body in bodies(words):
            at = body.home + 2 + body.slots
            if not body.numbers:
                raise BadRecord(body.home, "it begins a Body without number words, so without an identity")
            identity = words[at]
            if not 1 <= identity <= len(self.rows):
                raise BadRecord(at, f"{self.path} has no identity {identity}")
            row = self.rows[identity - 1]
            if (row.slots, row.numbers) != (body.slots, body.numbers):
                raise BadRecord(body.home, f"by {self.path}, object {identity} has {row.slots} slots and {row.numbers} number words, "
                                           f"and not {body.slots} and {body.numbers}")
            if identity in found:
                raise BadRecord(at, f"identity {identity} stands in a Body before this one")
            found.add(identity)
        return found

    def parts(self, on_disk):
        """What `leaks` wants to know of each object."""
        for identity, row in enumerate(self.rows, 1):
            head = self.head_of(row)
            way = None if head.way == "-" else head.way
            yield Part(head.kind, head.place, way, row is head, row.words, row.made, row.used, row.gone, identity in on_disk)


def count(text):
    return None if text == "-" else int(text)
