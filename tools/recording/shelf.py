"""Where a window keeps objects that it comes to once and needs again: in cells of 62 slots, which globals hold while it is written.

The first globals lead to a cell each, and the last ones to cells of such cells.
"""
from recording.forms import MOST

FIRST_GLOBAL, FLAT, DEEP = 2, 40, 22      # after the two tops
CHUNK, BESIDE = 0, 1                      # the register of the cell that was used last, and one beside it
MOST_PLACES = (FLAT + DEEP * MOST) * MOST


class TooMuch(Exception):
    """A window changes more than can be kept."""


class Shelf:
    def __init__(self, lines):
        self.lines, self.say = lines, lines.lines.append
        self.places = {}
        self.chunks, self.chunk = 0, None     # how many there are, and which one is in the register
        self.identities = []

    def put(self, node, register):
        if node in self.places:
            return
        place = self.places[node] = len(self.places)
        chunk, slot = divmod(place, MOST)
        if chunk == self.chunks:
            self.add_chunk()
        self.come_to(chunk)
        self.say(f"store {CHUNK} {slot} {register}")

    def get(self, node, register):
        chunk, slot = divmod(self.places[node], MOST)
        self.come_to(chunk)
        self.say(f"load {register} {CHUNK} {slot}")

    def come_to(self, chunk):
        if chunk != self.chunk:
            if chunk < FLAT:
                self.say(f"gload {CHUNK} {FIRST_GLOBAL + chunk}")
            else:
                deep, slot = divmod(chunk - FLAT, MOST)
                self.say(f"gload {CHUNK} {FIRST_GLOBAL + FLAT + deep}")
                self.say(f"load {CHUNK} {CHUNK} {slot}")
            self.chunk = chunk

    def add_chunk(self):
        chunk = self.chunks
        self.chunks += 1
        if chunk < FLAT:
            self.make(CHUNK)
            self.say(f"gstore {FIRST_GLOBAL + chunk} {CHUNK}")
        else:
            deep, slot = divmod(chunk - FLAT, MOST)
            if deep == DEEP:
                raise TooMuch
            if slot == 0:
                self.make(CHUNK)
                self.say(f"gstore {FIRST_GLOBAL + FLAT + deep} {CHUNK}")
            self.make(CHUNK)
            self.say(f"gload {BESIDE} {FIRST_GLOBAL + FLAT + deep}")
            self.say(f"store {BESIDE} {slot} {CHUNK}")
        self.chunk = chunk

    def make(self, register):
        self.identities.append(self.lines.new(register, MOST, 1))

    def clear(self):
        """Takes all that was kept from the globals."""
        if not self.chunks:
            return
        self.say(f"drop {CHUNK}")
        flat, deep = min(self.chunks, FLAT), -(-max(0, self.chunks - FLAT) // MOST)
        for place in [*range(flat), *range(FLAT, FLAT + deep)]:
            self.say(f"gstore {FIRST_GLOBAL + place} {CHUNK}")
        for identity in self.identities:
            self.lines.end(identity)
