"""The disk to which objects move: homes, the records that stand there, and the words that these are made of.

An object on the disk has a record, and its home is the number of the first word there. The words are kept in memory or
in a file, by a class for each: `write` and `read` take the number of a word, and `begin` is called before an epoch, in
which nothing is written.
"""
import contextlib
import os
import struct
from typing import NamedTuple

from modelling.heap import Away, Reference, words_of

TRIES = 1000                  # how often a file is tried to be made
BODY, STUB = 1, 2             # the lowest byte of a record
MOST_PARTS = 62
LAST_SCION = 2**30 - 1


class Body(NamedTuple):
    """The first two words of the record of an object that is on the disk: how many slots and number words it has."""
    slots: int
    numbers: int


class Stub(NamedTuple):
    """The same of an object that is back in the heap."""
    scion: int


class Full(Exception):
    """The disk has no room for these new homes."""

    def __init__(self, end, need, limit):
        super().__init__(end, need, limit)
        self.end, self.need, self.limit = end, need, limit


class Failed(Exception):
    """The disk did not write, or did not read."""

    def __str__(self):
        return "disk-fault"


class Damaged(Exception):
    """A word that was read cannot stand at this place of the record of this home."""

    def __init__(self, home, at, word):
        super().__init__(home, at, word)
        self.home, self.at, self.word = home, at, word

    def __str__(self):
        return f"damaged {self.home} {self.at} {self.word}"


class WordsInMemory:
    """Words by their numbers."""

    def __init__(self):
        self.words = {}

    def begin(self):
        """There is nothing to open."""

    def write(self, first, words):
        self.words.update(enumerate(words, first))

    def read(self, first, count):
        return [self.words.get(at, 0) for at in range(first, first + count)]

    def content(self):
        """What a file of these words holds, or None where nothing was written."""
        if not self.words:
            return None
        count = max(self.words) + 1
        return struct.pack(f"<{count}Q", *self.read(0, count))


class WordsInFile:
    """Words in a file of its own, which is made at the first write: what is at its name then is removed. What becomes of the
    name later does not matter. What is past its end is read as 0."""

    def __init__(self, path):
        self.path = path
        self.file = self.reader = None    # descriptors

    def begin(self):
        """Takes a descriptor for reading, where there was a write."""
        if self.reader is not None:
            os.close(self.reader)
        if self.file is not None:
            self.reader = called(os.dup, self.file)

    def write(self, first, words):
        if self.file is None:
            self.file = called(new_file, self.path)
        data, done = struct.pack(f"<{len(words)}Q", *words), 0
        while done < len(data):
            taken = called(os.pwrite, self.file, data[done:], 8 * first + done)
            if not taken:
                raise Failed
            done += taken

    def read(self, first, count):
        data, part = b"", None
        while len(data) < 8 * count and part != b"":
            part = called(os.pread, self.reader, 8 * count - len(data), 8 * first + len(data))
            data += part
        return list(struct.unpack(f"<{count}Q", data.ljust(8 * count, b"\0")))


def new_file(path):
    """A new file at the path, which only its owner may read and write. After the removal of what is there another run may have
    made its own, so both are tried again, but not for ever."""
    for _ in range(TRIES):
        with contextlib.suppress(FileNotFoundError):
            os.remove(path)
        with contextlib.suppress(FileExistsError):
            return os.open(path, os.O_RDWR | os.O_CREAT | os.O_EXCL, 0o600)
    raise FileExistsError(path)


def called(function, *arguments):
    """What a call of the system gives. Raises Failed where it fails."""
    try:
        return function(*arguments)
    except OSError:
        raise Failed from None


class Disk:
    """Homes, one after the other from word 1 on, and their records."""

    def __init__(self, limit, words):
        self.limit, self.end, self.words = limit, 1, words
        self.names = {}       # the numbers that a history has for objects, by their homes

    def begin(self):
        """Begins an epoch. Raises Failed where the disk cannot be read in it."""
        self.words.begin()

    def have_room(self, need):
        """Raises Full where homes of so many words have no room."""
        if self.end + need > self.limit:
            raise Full(self.end, need, self.limit)

    def reserve(self, obj):
        """Gives a home to an object."""
        obj.home = self.end
        self.end += obj.words
        self.names[obj.home] = obj.name

    def write_body(self, obj):
        """Writes an object. All that its slots lead to have homes."""
        self.words.write(obj.home, [first_word_of(BODY, obj), 0, *map(slot_word, obj.slots), *obj.numbers])

    def write_stub(self, obj):
        self.words.write(obj.home, [first_word_of(STUB, obj), obj.scion])

    def read(self, home):
        """Reads the first two words of a record: a Body or a Stub."""
        first, second = self.words.read(home, 2)
        kind, slots, numbers = first & 0xFF, first >> 8 & 0xFF, first >> 16 & 0xFF
        is_head = kind in (BODY, STUB) and first == first_word(kind, slots, numbers, home)
        if not is_head or max(slots, numbers) > MOST_PARTS or home + words_of(slots, numbers) > self.end:
            raise Damaged(home, 0, first)
        if kind == BODY and second or kind == STUB and not 1 <= second <= LAST_SCION:
            raise Damaged(home, 1, second)
        return Body(slots, numbers) if kind == BODY else Stub(second)

    def read_rest(self, home, body):
        """Reads the other words of a Body: its slots and its number words."""
        words = self.words.read(home + 2, body.slots + body.numbers)
        slots = [self.slot(home, at, word) for at, word in enumerate(words[:body.slots], 2)]
        return slots, words[body.slots:]

    def slot(self, home, at, word):
        """What a slot holds of which this word was read, in the record of this home."""
        if word and not (word % 4 == 3 and 1 <= word // 4 < self.end):
            raise Damaged(home, at, word)
        return Away(word // 4) if word else None


def first_word(kind, slots, numbers, home):
    """The first word of a record."""
    return kind + slots * 2**8 + numbers * 2**16 + home * 2**32


def first_word_of(kind, obj):
    return first_word(kind, len(obj.slots), len(obj.numbers), obj.home)


def slot_word(word):
    """The word that stands for a slot in a record."""
    if word is None:
        return 0
    return 4 * (word.object.home if isinstance(word, Reference) else word.home) + 3
