"""Operations, one event after the other.

Each is a generator that stops after each of its events, with what the event did, and returns its reply, or why it is
refused, with the last one.
"""
from typing import NamedTuple

from modelling.disk import Body, Damaged
from modelling.heap import Away, Object, Reference, words_of

# Why a call is refused, and waits.
ASKED = "poll: a collection is asked for; waits"
LACKING = "asks for a collection, and waits for room"
ALL_FILLED = "asks for a collection, and waits for an empty forwarding word"


class Refused(NamedTuple):
    """Why a call waits, and for how many words."""
    why: str
    need: int = 0


def value_of(word):
    """The text of what a slot or a global holds, where it is nothing or an object in the heap."""
    return "nil" if word is None else f"ref {word.object.name}"


class Calls:
    """The operations on one heap, and the history of what they made, read and wrote."""

    def __init__(self, heap, disk, say):
        self.heap, self.disk, self.say = heap, disk, say
        self.stop = False     # a collection is asked for
        self.made = 0
        self.history = []

    def begin(self):
        """Begins an epoch."""
        self.stop = False
        self.heap.begin()
        self.disk.begin()

    # operations on registers

    def same(self, thread, r, s):
        yield from ()
        return "yes" if thread.registers[r] is thread.registers[s] else "no"

    def copy(self, thread, r, s):
        yield from ()
        thread.registers[r] = thread.registers[s]
        return "ok"

    def drop(self, thread, r):
        yield from ()
        thread.registers[r] = None
        return "ok"

    # operations on the heap

    def new(self, thread, r, slots, numbers):
        if self.stop:
            return Refused(ASKED)
        yield "poll: no collection is asked for"
        words = words_of(slots, numbers)
        first = yield from self.claim(words)
        if first is None:
            return self.refuse(LACKING, words)
        yield from self.fill(first + 1, words - 1)
        thread.registers[r] = Object(first, words, self.made, [None] * slots, [0] * numbers)
        self.history.append(f"make {thread.number} {self.made} {slots} {numbers}")
        self.made += 1
        return "ok"

    def load(self, thread, r, s, i):
        obj = yield from self.with_slot(thread, s, i)
        if not isinstance(obj, Object):
            return obj
        return (yield from self.look(thread, r, obj.slots, i, f"f {obj.name} {i}"))

    def gload(self, thread, r, g):
        if self.stop:
            return Refused(ASKED)
        yield "poll: no collection is asked for"
        return (yield from self.look(thread, r, self.heap.globals, g, f"g {g}"))

    def store(self, thread, s, i, r):
        obj = yield from self.with_slot(thread, s, i)
        if not isinstance(obj, Object):
            return obj
        return self.write(thread, r, obj.slots, i, f"f {obj.name} {i}")

    def gstore(self, thread, g, r):
        if self.stop:
            return Refused(ASKED)
        yield "poll: no collection is asked for"
        return self.write(thread, r, self.heap.globals, g, f"g {g}")

    def get(self, thread, s, j):
        obj = yield from self.with_number(thread, s, j)
        if not isinstance(obj, Object):
            return obj
        self.history.append(f"read {thread.number} n {obj.name} {j} num {obj.numbers[j]}")
        return str(obj.numbers[j])

    def put(self, thread, s, j, value):
        obj = yield from self.with_number(thread, s, j)
        if not isinstance(obj, Object):
            return obj
        obj.numbers[j] = value
        self.history.append(f"write {thread.number} n {obj.name} {j} num {value}")
        return "ok"

    # their first events

    def with_slot(self, thread, s, i):
        """Poll and look at the size: the object in s, or the reply where it has no slot i."""
        obj = yield from self.polled(thread, s)
        if not isinstance(obj, Object):
            return obj
        if i >= len(obj.slots):
            return "range"
        yield self.say and f"look at the size: {len(obj.slots)} slots"
        return obj

    def with_number(self, thread, s, j):
        """Poll and look at the size: the object in s, or the reply where it has no number word j."""
        obj = yield from self.polled(thread, s)
        if not isinstance(obj, Object):
            return obj
        if j >= len(obj.numbers):
            return "range"
        yield self.say and f"look at the size: {len(obj.numbers)} number words"
        return obj

    def polled(self, thread, s):
        """Poll: the object in s, at which nothing looked yet, or the reply."""
        if thread.registers[s] is None:
            return "nil"
        if self.stop:
            return Refused(ASKED)
        yield "poll: no collection is asked for"
        return thread.registers[s]

    # what several have in common

    def refuse(self, why, need=0):
        """Asks for a collection."""
        self.stop = True
        return Refused(why, need)

    def claim(self, words):
        """Takes words for an object: the first, or None where they end past the last one of the heap."""
        first = self.heap.claim(words)
        if first is None:
            yield self.say and f"claims words up to {self.heap.free - 1}, past the last one"
        else:
            yield self.say and f"claims words {first} to {first + words - 1}"
        return first

    def fill(self, first, words):
        """Stores words that no other thread sees yet, one an event."""
        for place in range(first, first + words):
            yield self.say and f"stores word {place}"

    def write(self, thread, r, places, at, name):
        """Puts what a register holds into a slot or a global."""
        obj = thread.registers[r]
        places[at] = None if obj is None else Reference(obj)
        self.history.append(f"write {thread.number} {name} {value_of(places[at])}")
        return "ok"

    def look(self, thread, r, places, at, name):
        """Looks at a slot or a global, and uses what it leads to."""
        seen = places[at]
        if isinstance(seen, Away) or seen is not None and seen.marked:
            obj = yield from self.use(seen)
            if not isinstance(obj, Object):
                return obj
            if places[at] == seen:
                places[at] = Reference(obj)
        found = places[at]
        self.history.append(f"read {thread.number} {name} {value_of(found)}")
        thread.registers[r] = None if found is None else found.object
        return "null" if found is None else "ref"

    # what a look leads to

    def use(self, seen):
        """The events between the look at a marked reference, or at a home, and the exchange for a clean one: the
        object, or why the call is refused."""
        if isinstance(seen, Away):
            yield self.say and f"look: home {seen.home}"
            return (yield from self.use_home(seen.home))
        yield self.say and f"look: a marked reference to the object at {seen.object.address}"
        yield from self.clear(seen.object)
        return seen.object

    def clear(self, obj):
        """Takes the mark from an object."""
        obj.stale = False
        yield self.say and f"clears the mark of the object at {obj.address}"

    def use_home(self, home):
        """Finds the object of a home, or brings it back."""
        places = self.heap.search(home)
        place, word = yield from self.probe(home, places)
        if word is not None:
            return word.object
        if place is None:
            return self.refuse(ALL_FILLED)
        record = self.disk.read(home)
        is_body = isinstance(record, Body)
        yield self.say and f"reads the first two words of home {home}: {'a Body' if is_body else 'a Stub'}"
        if is_body:
            return (yield from self.bring_back(home, record, place, places))
        obj = self.heap.scions.object_of(record.scion)
        if obj is None:
            raise Damaged(home, 1, record.scion)
        yield from self.clear(obj)
        return obj

    def probe(self, home, places):
        """Reads the forwarding words at these places, one an event: the place of the first one that names the home, with
        that word; or that of an empty one before it, with None; or twice None where none is left."""
        for place in places:
            word = self.heap.forward[place]
            yield self.say and f"reads forwarding word {place}: {f'home {word.home}' if word else 'empty'}"
            if word is None or word.home == home:
                return place, word
        return None, None

    def bring_back(self, home, body, place, places):
        """Copies an object into the heap, and commits the copy to the empty forwarding word that was found, or to the next
        one at these places, which the search did not come to yet."""
        slots, numbers = [], []
        if body.slots + body.numbers:
            slots, numbers = self.disk.read_rest(home, body)
            yield self.say and f"reads the rest of home {home}"
        words = words_of(body.slots, body.numbers)
        first = yield from self.claim(words)
        if first is None:
            return self.refuse(LACKING, words)
        yield from self.fill(first + 1, words - 1)
        yield from self.fill(first, 1)
        copy = Object(first, words, self.disk.names.get(home, 0), slots, numbers, home)
        while place is not None:
            won = self.heap.forward[place] is None
            if won:
                self.heap.fill_forward(place, home, copy)
            word = self.heap.forward[place]
            yield self.say and f"commits to forwarding word {place}: {'won' if won else f'lost to home {word.home}'}"
            if word.home != home:
                place, word = yield from self.probe(home, places)
            if word is not None:
                return word.object
        return self.refuse(ALL_FILLED)
