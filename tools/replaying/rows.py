"""What a run in a heap did, as a row.

Each time that an object leaves, a Body is written to its home, and when it comes back, the next collection puts a Stub there. So as many
came back as Bodies were written, less those that stand in the file in the end. The Stubs that were written are not so many: a Move
writes them for objects that stay, too.
"""
import re
from typing import NamedTuple, Optional

from common.words import REFUSED, Told
from replaying.melt import Lines
from replaying.stale import BadRecord, bodies, words_of

HEADS = "heap", "collections", "left", "came back", "% of uses", "in use", "held", "on disk", "time", "end"
CSV_HEADS = "heap", "collections", "left", "came_back", "percent", "in_use", "held", "on_disk", "seconds", "end"
LITTLE = 100                   # fewer than one use in so many


class Uses(NamedTuple):
    """The uses of the program, or what stands for them."""
    number: int
    source: str
    sum: Optional[int] = None  # that of a replay, where it was foretold


EXPECT = re.compile(r"thread 0\nreplies (\d+)\nsum (\d+)\nend done\nuses (\d+)\n", re.ASCII)


def uses_of(trace, path):
    """The uses by the file NAME.expect, or the loads of the trace where there is none."""
    try:
        with open(path, encoding="utf-8", errors="replace") as file:
            text = file.read()
    except FileNotFoundError:
        return Uses(trace.loads, "load and gload operations of the trace, since there is no count of uses beside it")
    found = EXPECT.fullmatch(text)
    if found is None:
        raise Told(REFUSED, f"{path} has not the five lines of a recording")
    replies, total, number = map(int, found.groups())
    if replies != trace.operations:
        raise Told(REFUSED, f"{path} is of another trace: it has {replies} replies, and the trace {trace.operations} operations")
    return Uses(number, f"uses of the program, by {path}", total)


class Row(NamedTuple):
    heap: int
    seconds: float
    end: str
    uses: int
    is_done: bool
    fault: str                 # why it says nothing of the heap, or nothing
    collections: int = 0
    left: int = 0
    came_back: int = 0
    more: int = 0              # so many more can have come back at most: they were not settled
    in_use: int = 0
    held: int = 0
    on_disk: int = 0

    @property
    def is_little(self):
        came_back = self.came_back + self.more
        return self.is_done and not self.fault and (LITTLE * came_back < self.uses or not came_back)

    def counts(self):
        percent = f"{100 * self.came_back / self.uses:.2f}" if self.uses and self.is_done else "-"
        return [self.collections, self.left, self.came_back, percent, self.in_use, self.held, self.on_disk]

    def cells(self, for_program=False):
        """The row as texts. To a person a + says that more can have come back."""
        counts = ["-"] * 7 if self.fault else [str(count) for count in self.counts()]
        if self.more and not for_program:
            counts[2] += "+"
        return [str(self.heap), *counts, f"{self.seconds:.3f}", self.end]


def row_of(replay, heap, uses, unsettled):
    """The row of a run, which may have failed: its `end` says so then. `unsettled` objects can be back without a Stub in the end,
    where there was no collection after the last operation."""
    known = {"heap": heap, "seconds": replay.seconds, "uses": uses.number, "is_done": replay.is_done}
    if not replay.tells_of_heap:
        return Row(**known, end=replay.end, fault=replay.end)
    if replay.is_done and uses.sum is not None and replay.lines.sums != [uses.sum]:
        wrong = f"{replay.end} and a sum of {replay.lines.sums[0]} in the place of {uses.sum}"
        return Row(**known, end=wrong, fault=wrong)
    try:
        return Row(**known, end=replay.end, fault="", **counts_of(replay.lines, replay.stale, unsettled))
    except BadRecord as bad:
        wrong = f"{replay.end} and a bad melt.stale, {bad}"
        return Row(**known, end=wrong, fault=wrong)


def counts_of(lines: Lines, stale, unsettled):
    """What the table of collections says, and the file that the run left. What is back without a Stub still has its Body."""
    rows = lines.collections
    end = rows[-1].end if rows else 1
    left = sum(row.bodies for row in rows)
    words = words_of(stale) if end > 1 else ()
    if words is None:
        raise BadRecord(1, "there is no file, and the table has records")
    on_disk = sum(1 for _ in bodies(words, end))
    return {"collections": len(rows), "left": left, "came_back": left - on_disk, "more": min(unsettled, on_disk), "on_disk": end - 1,
            "in_use": max((row.live for row in rows), default=0), "held": max((row.held for row in rows), default=0)}
