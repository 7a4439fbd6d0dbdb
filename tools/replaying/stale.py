"""The file melt.stale: records, one after the other from word 1 on, by the format in docs/FORMATS.md.

Homes are given one after the other and written in the same collection, so the records leave no gap, and a word that is no record is
damage. Of a Stub two words are written: where it is the last record, the file may end after them.
"""
import array
import sys
from typing import NamedTuple

BODY, STUB = 1, 2
MOST_PARTS = 62
LAST_SCION = 2**30 - 1


class BadRecord(Exception):
    """What is wrong with the file, at which word."""

    def __init__(self, word, why):
        super().__init__(word, why)
        self.word, self.why = word, why

    def __str__(self):
        return f"word {self.word}: {self.why}"


class Record(NamedTuple):
    home: int
    is_body: bool
    slots: int
    numbers: int

    @property
    def words(self):
        return 2 + self.slots + self.numbers


def words_of(path):
    """The words of the file, or None where there is no such file."""
    try:
        with open(path, "rb") as file:
            data = file.read()
    except FileNotFoundError:
        return None
    if len(data) % 8:
        raise BadRecord(len(data) // 8, "the file ends within it")
    words = array.array("Q", data)
    if sys.byteorder == "big":
        words.byteswap()
    return words


def records(words, end=None):
    """The records from word 1 to `end`, which is the first word past all of them; or to the end of the file."""
    limit, at = end or len(words), 1
    while at < limit:
        record = record_at(words, at)
        yield record
        at += record.words
    if end and at != end:
        raise BadRecord(end, "a record does not end there, and the table has that it does")


def record_at(words, at):
    if at + 2 > len(words):
        raise BadRecord(at, "the file ends within the first two words of a record")
    first, second = words[at], words[at + 1]
    kind, slots, numbers = first & 0xFF, first >> 8 & 0xFF, first >> 16 & 0xFFFF
    if kind not in (BODY, STUB) or max(slots, numbers) > MOST_PARTS:
        raise BadRecord(at, "it begins neither a Body nor a Stub")
    if first >> 32 != at:
        raise BadRecord(at, f"it is of home {first >> 32}")
    record = Record(at, kind == BODY, slots, numbers)
    if record.is_body and second:
        raise BadRecord(at + 1, "it is not 0, and a Body has 0 there")
    if not record.is_body and not 1 <= second <= LAST_SCION:
        raise BadRecord(at + 1, "it is no scion, and a Stub has one there")
    if record.is_body and at + record.words > len(words):
        raise BadRecord(at, "the file ends within this Body")
    return record


def bodies(words, end=None):
    """The records of objects that are on the disk, in which each slot is empty or leads to a record."""
    found = list(records(words, end))
    homes = {record.home for record in found}
    for record in found:
        if not record.is_body:
            continue
        for at in range(record.home + 2, record.home + 2 + record.slots):
            word = words[at]
            if word and (word & 3 != 3 or word >> 2 not in homes):
                raise BadRecord(at, "it is a slot, and leads to no record")
        yield record
