"""Which objects a program keeps and does not use, by their kind and the place where they were made.

Nothing here knows where this is from: a recording and the file of a replay, or the program itself. Whoever has an answer for each
field of a Part can ask.
"""
from collections import Counter
from typing import NamedTuple, Optional

THIRDS = 3


class Part(NamedTuple):
    """An object, or a further part of one that is kept in several. Times are counts of uses."""
    kind: str
    place: str
    way: Optional[str]         # how it is held
    is_first: bool             # an object counts by its first part, and its words by all of them
    words: int
    made: int
    used: Optional[int]        # the last time
    gone: Optional[int]
    on_disk: bool


class Total:
    """Objects and their words."""

    def __init__(self):
        self.objects = self.words = 0

    def add(self, part):
        self.objects += part.is_first
        self.words += part.words


class Leak:
    """All objects of a kind that were made at one place."""

    def __init__(self, kind, place):
        self.kind, self.place = kind, place
        self.made, self.on_disk = Total(), Total()
        self.kept = [Total() for _ in range(THIRDS)]
        self.used = None
        self.ways = Counter()

    def add(self, part, times):
        self.made.add(part)
        for total, time in zip(self.kept, times):
            if part.made <= time and (part.gone is None or time < part.gone):
                total.add(part)
        if part.on_disk:
            self.on_disk.add(part)
        if part.used is not None:
            self.used = max(part.used, self.used or 0)
        if part.is_first and part.way:
            self.ways[part.way] += 1

    @property
    def way(self):
        """What holds most of them; of ways that hold as many the first by the alphabet."""
        return min(self.ways, key=lambda way: (-self.ways[way], way), default=None)

    def size(self):
        """What is largest stands first: what has most words on the disk, then what has most in the end, and then what was made."""
        return self.on_disk.words, self.kept[-1].words, self.made.words


def thirds(first, last):
    """The uses at which the thirds of a recording end."""
    return [first - 1 + (last - first + 1) * third // THIRDS for third in range(1, THIRDS + 1)]


def leaks(parts, times):
    """The largest first."""
    found = {}
    for part in parts:
        found.setdefault((part.kind, part.place), Leak(part.kind, part.place)).add(part, times)
    return sorted(found.values(), key=lambda leak: (*(-size for size in leak.size()), leak.kind, leak.place))
