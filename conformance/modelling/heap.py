"""A heap: its objects, which lead to each other, and what counts its words.

An object takes words one after the other: a header, a word for its home, its slots, and its number words. The words
themselves are not kept: an object has what they say, and the address of the first.
"""
import itertools
from dataclasses import dataclass
from typing import NamedTuple

SPREAD = 2_654_435_769        # what a home is multiplied by for the start of its search


def words_of(slots, numbers):
    """How many words an object takes, in the heap and on the disk."""
    return 2 + slots + numbers


@dataclass(eq=False, slots=True)
class Object:
    """An object in the heap. A stale one was not used since objects were marked last."""
    address: int
    words: int            # how many it takes
    name: int             # the number that a history has for it; the program keeps it beside the words
    slots: list
    numbers: list
    home: int = 0         # 0 where it has none
    scion: int = 0        # 0 where it has no home, or came back since the last collection
    stale: bool = False


class Reference(NamedTuple):
    """What a slot or a global holds of an object in the heap. A register holds the object alone."""
    object: Object
    marked: bool = False


class Away(NamedTuple):
    """What a slot or a global holds of an object on the disk, or of one that was there."""
    home: int


class Forwarding(NamedTuple):
    """What stands in a forwarding word: the object of this home is back, and is this one."""
    home: int
    object: Object


class Scions:
    """Numbers from 1 on, each for an object whose home has a Stub."""

    def __init__(self):
        self.objects = {}     # by their numbers, in the order in which these were given
        self.given_back = []

    def add(self, obj):
        """Gives the number that was given back last, or the lowest that was never given."""
        obj.scion = self.given_back.pop() if self.given_back else len(self.objects) + 1
        self.objects[obj.scion] = obj

    def give_back(self, scion):
        del self.objects[scion]
        self.given_back.append(scion)

    def live(self):
        """The objects that have one: the last one that got its number first."""
        return list(reversed(self.objects.values()))

    def object_of(self, scion):
        """The object of a number, or None."""
        return self.objects.get(scion)


class Heap:
    """Words 1 to `size`."""

    def __init__(self, size, globals_, forward):
        self.size = size
        self.free = 1
        self.globals = [None] * globals_
        self.forward = [None] * forward   # each empty or a Forwarding
        self.scions = Scions()

    def begin(self):
        """Begins an epoch: what was claimed past the last word counts no more."""
        self.free = min(self.free, self.size + 1)

    def claim(self, words):
        """Takes words from the first free place on, also past the end: the first, or None where they do not fit."""
        first = self.free
        self.free += words
        return first if self.free <= self.size + 1 else None

    def search(self, home):
        """The places of the forwarding words in the order in which the search for a home reads them: from a start of its
        own on upwards, and from the last one to place 0."""
        count = len(self.forward)
        start = home * SPREAD % 2**32 % count
        return itertools.chain(range(start, count), range(start))

    def fill_forward(self, place, home, obj):
        """Fills an empty forwarding word."""
        self.forward[place] = Forwarding(home, obj)

    def settle(self, disk):
        """Gives each object that came back since the last collection a scion, and its home a Stub, in the order of the
        places of their forwarding words: how many."""
        filled = [word for word in self.forward if word is not None]
        for _, obj in filled:
            self.scions.add(obj)
            disk.write_stub(obj)
        self.forward = [None] * len(self.forward)
        return len(filled)


def held_by(threads):
    """The objects that registers hold, each once, in the order of the registers."""
    return list(dict.fromkeys(obj for thread in threads for obj in thread.registers if obj is not None))


def words_held(threads):
    return sum(obj.words for obj in held_by(threads))
