"""How an object of a program stands in the trace: as one cell, or as a tree of cells.

A cell is an object of the trace. The head, the first one, stays as long as the object does, so that what leads to it never
changes. A reference stays in the slot where it was put: which slot that is says nothing. When all slots are taken, one of them gives
what it has to a new cell, and leads to that; they do so in turn, breadth first, so a tree is as deep as it has to be. A cell that
has nothing left goes. What an object has beyond its references is in number words: in those of its cells, and in cells of number
words alone, the pads.
"""
from itertools import islice

MOST = 62                  # slots of an object of the trace, and number words
WIDTH = 64                 # a place is a number: that of a cell, by this, and of a slot of it. So places of the head are its slots


class Cell:
    __slots__ = ("identity", "content", "numbers", "number", "above", "at", "taken")

    def __init__(self, identity, slots, numbers):
        self.identity, self.numbers = identity, numbers
        self.content = [None] * slots      # in each slot a node, a cell, or nothing
        self.taken = self.number = 0       # how many slots have something; the number among the cells of the object
        self.above = self.at = None        # the cell that leads here, and its slot

    def words(self):
        return 2 + len(self.content) + self.numbers

    def is_branch(self):
        return bool(self.content)

    def way(self):
        """The slots from the head to this cell."""
        slots, cell = [], self
        while cell.above:
            slots.append(cell.at)
            cell = cell.above
        return slots[::-1]


def place_above(cell):
    """The place that leads to a cell."""
    return cell.above.number * WIDTH + cell.at


class Form:
    """The cells of an object."""
    __slots__ = ("head", "inner", "places", "free", "pads", "words", "turn", "made")

    def __init__(self, head):
        self.head = head
        self.inner = None      # the other cells with slots, by their numbers, in the order of their making
        self.places = {}       # the place of each node that the object leads to
        self.free = list(range(len(head.content) - 1, -1, -1))
        self.pads = ()
        self.turn = 0          # all slots of so many cells lead to cells already
        self.made = 0          # how many cells were made beside the head
        self.words = head.words()

    def cell_at(self, place):
        return self.head if place < WIDTH else self.inner[place // WIDTH]

    def put(self, place, content):
        cell, slot = self.cell_at(place), place % WIDTH
        cell.content[slot] = content
        cell.taken += 1
        if isinstance(content, Cell):
            content.above, content.at = cell, slot
        else:
            self.places[content] = place

    def take(self, place):
        """Empties a place, and answers what was there."""
        cell, slot = self.cell_at(place), place % WIDTH
        content, cell.content[slot] = cell.content[slot], None
        cell.taken -= 1
        if not isinstance(content, Cell):
            del self.places[content]
        return content

    def branches(self):
        """The cells with slots, and the head."""
        yield self.head
        yield from (self.inner or {}).values()

    def give_way(self):
        """The place that is next to lead to a new cell."""
        for begin in (self.turn, 0):
            for self.turn, cell in enumerate(islice(self.branches(), begin, None), begin):
                for slot, content in enumerate(cell.content):
                    if content is not None and not (isinstance(content, Cell) and content.is_branch()):
                        return cell.number * WIDTH + slot
        raise AssertionError("a full object has a slot that leads to no cell with slots")

    def add(self, cell):
        """Takes in a new cell, and the slots that it has."""
        if cell.is_branch():
            self.made += 1
            cell.number = self.made
            if self.inner is None:
                self.inner = {}
            self.inner[cell.number] = cell
            first = cell.number * WIDTH
            self.free += range(first + len(cell.content) - 1, first - 1, -1)
        else:
            self.pads += cell,
        self.words += cell.words()

    def remove(self, cell):
        if cell.is_branch():
            del self.inner[cell.number]
            self.free = [place for place in self.free if place // WIDTH != cell.number]
        else:
            self.pads = tuple(pad for pad in self.pads if pad is not cell)
        self.words -= cell.words()
        self.turn = 0

    def all_cells(self):
        return [*self.branches(), *self.pads]


def first_shape(kids, words, fixed):
    """How many slots and number words the head of a new object has."""
    slots = kids if fixed else kids + max(1, kids // 4)
    if fixed and words - 2 - kids > MOST:
        slots += 1 + (words - 2 - kids) // MOST        # for the pads
    slots = min(MOST, slots)
    return slots, min(MOST, max(1, words - 2 - slots))


def next_slots(form):
    """How many slots the next cell of an object has: half of those that it has, as lists grow."""
    return min(MOST, max(4, sum(len(cell.content) for cell in form.branches()) // 2))
