"""Which heaps are tried.

The plain need is the smallest heap in which a trace ends done while nothing can move. What comes back from the disk grows as the heap
gets smaller, but not steadily, so no bisection finds where it becomes much: the heap is halved until a run does not end done, and
around the bend, where it becomes much, sixteenths are tried on both sides.
"""
from common.words import FAILED, Told
from replaying.melt import PLAIN, failure
from replaying.words import LEAST_HEAP, MOST_HEAP


def plain_need(melt, trace):
    """The smallest heap in which the trace ends done and nothing moves, or None where none has room. Counts the trace on the way."""
    def suffices(heap):
        with melt.run(trace.data, trace.threads, heap, PLAIN) as ran:
            if not ran.tells_of_heap:
                raise Told(FAILED, failure(ran, heap))
            return ran.is_done
    count(melt, trace)
    low = LEAST_HEAP
    high = min(max(trace.words + 1, low), MOST_HEAP)       # a heap that has room for all that is ever made is never full
    if not suffices(high):
        return None
    while low < high:
        middle = (low + high) // 2
        low, high = (low, middle) if suffices(middle) else (middle + 1, high)
    return low


def count(melt, trace):
    """Has the trace judged by a run, which refuses what is none, and then counted."""
    with melt.run(trace.data, 1, MOST_HEAP, PLAIN):
        trace.count()


def halves(first, last):
    """Heaps from the first to the last, each half of the one before."""
    while first > last:
        yield first
        first //= 2
    yield last


class Search:
    """The rows of all heaps that were tried, by their heaps. `row_of(heap)` tries one."""

    def __init__(self, row_of):
        self.row_of, self.rows = row_of, {}

    def tries(self, heap):
        if heap not in self.rows:
            self.rows[heap] = self.row_of(heap)
        return self.rows[heap]

    def halve(self, first, last=None):
        """Halves from the first heap to the last; or until a run does not end done, where none is given."""
        for heap in halves(first, last or LEAST_HEAP):
            if not self.tries(heap).is_done and last is None:
                return

    def look_around_bend(self):
        """Tries sixteenths of the heap at the bend, as far as the next halves on both sides. Those above it may move the bend up."""
        bend = self.bend()
        if bend is None or bend == min(self.rows):
            return
        least, most = min(self.rows), max(self.rows)
        for part in range(-7, 16):
            heap = bend + part * bend // 16
            if least < heap < most:
                self.tries(heap)

    def bend(self):
        """The smallest heap from which on little comes back in every heap that was tried, or None."""
        bend = None
        for heap in sorted(self.rows, reverse=True):
            if not self.rows[heap].is_little:
                break
            bend = heap
        return bend
