"""Collections: what is reached stays, packed from word 1 on, or moves to the disk."""
from typing import NamedTuple

from modelling.heap import Away, Reference, held_by, words_held

INACTIVE, MARK, MOVE = "inactive", "mark", "move"


class Entry(NamedTuple):
    """What is told of a collection. The records are those that were written since the one before."""
    phase: str
    held: int             # the words of the objects that registers hold, after it
    live: int             # the words in use after it
    bodies: int
    stubs: int
    end: int              # the first word of the disk after all homes


def next_phase(entry, options):
    """The phase that is planned after a collection."""
    if 100 * entry.live < options.mark * options.heap:
        return INACTIVE
    if 100 * entry.live >= options.move * options.heap and entry.phase in (MARK, MOVE):
        return MOVE
    return MARK


def collect(heap, disk, threads, phase):
    """Settles what came back, and makes a collection. Raises Full where the disk lacks room for new homes: the heap is
    settled then and has not changed else."""
    settled = heap.settle(disk)
    collection = Collection(heap, held_by(threads), phase)
    collection.give_homes(disk)
    collection.write_bodies(disk)
    if phase is not INACTIVE:
        collection.mark()
    collection.pack()
    stubs = collection.write_stubs(disk)
    return Entry(phase, words_held(threads), heap.free - 1, len(collection.leaving), settled + stubs, disk.end)


def reached(heap, held):
    """The objects that are reached from what registers hold, globals and scions, breadth first."""
    roots = [*held, *(word.object for word in heap.globals if isinstance(word, Reference)), *heap.scions.live()]
    known = dict.fromkeys(roots)
    found = list(known)
    for obj in found:         # it grows
        for word in obj.slots:
            if isinstance(word, Reference) and word.object not in known:
                known[word.object] = None
                found.append(word.object)
    return found


class Collection:
    """What one collection found: the objects that stay, and those that leave, in the order in which they were found."""

    def __init__(self, heap, held, phase):
        self.heap, self.held = heap, set(held)
        found = reached(heap, held)
        self.leaving = [obj for obj in found if phase is MOVE and obj.stale and obj not in self.held]
        self.gone = set(self.leaving)
        self.staying = [obj for obj in found if obj not in self.gone]
        self.named = []       # those that stay and are given homes

    def give_homes(self, disk):
        """Gives homes to what leaves, and then to what stays and is named by it."""
        targets = {word.object for obj in self.leaving for word in obj.slots if isinstance(word, Reference)}
        self.named = [obj for obj in self.staying if obj in targets and not obj.home]
        wanted = [obj for obj in self.leaving if not obj.home] + self.named
        disk.have_room(sum(obj.words for obj in wanted))
        for obj in wanted:
            disk.reserve(obj)

    def write_bodies(self, disk):
        """Writes what leaves, and gives its scions back."""
        for obj in self.leaving:
            disk.write_body(obj)
            if obj.scion:
                self.heap.scions.give_back(obj.scion)

    def mark(self):
        """Marks what stays, but for what registers hold, and all references to it. The others become homes."""
        for obj in self.staying:
            obj.stale = obj not in self.held
            self.mark_all(obj.slots)
        self.mark_all(self.heap.globals)

    def mark_all(self, places):
        for at, word in enumerate(places):
            if not isinstance(word, Reference):
                continue
            if word.object in self.gone:
                places[at] = Away(word.object.home)
            elif not word.marked:
                places[at] = Reference(word.object, marked=True)

    def pack(self):
        """Puts what stays side by side."""
        self.heap.free = 1
        for obj in self.staying:
            obj.address = self.heap.free
            self.heap.free += obj.words

    def write_stubs(self, disk):
        """Gives a scion to each object that stays and was given a home; how many these are."""
        for obj in self.named:
            self.heap.scions.add(obj)
            disk.write_stub(obj)
        return len(self.named)
