"""Threads, turns and waiting: a run of a script."""
from collections import deque
from typing import NamedTuple

from modelling.calls import ALL_FILLED, ASKED, LACKING, Calls, Refused
from modelling.collecting import INACTIVE, MARK, MOVE, collect, next_phase
from modelling.disk import Damaged, Disk, Failed, Full
from modelling.heap import Heap, words_held
from modelling.traces import REGISTERS, written_out

RUNS = "runs"                  # can have an event
DUE = "due"                    # can have an event: the request for a silent collection
SILENT = "waits for its silent collection"
COLLECTING = "waits for its collection"
ENDED = "ended"


class Thread:
    def __init__(self, number, program):
        self.number = number
        self.registers = [None] * REGISTERS
        self.ahead = written_out(program)
        self.operation = None
        self.call = None      # the operation in flight
        self.replies = []
        self.mode = RUNS
        self.need = 0         # the words of which it lacks room
        self.end = None
        self.advance()

    def can_go_on(self):
        return self.mode is RUNS or self.mode is DUE

    def advance(self):
        """Comes to the next operation, or to the end."""
        self.operation = next(self.ahead, None)
        if self.operation is None:
            self.finish("end done")
        else:
            self.mode = RUNS

    def finish(self, line):
        """Ends. A thread that has ended holds nothing."""
        self.end, self.mode, self.call = line, ENDED, None
        self.registers = [None] * REGISTERS


class Turns:
    """Who has the next event."""

    def __init__(self, orders, threads):
        self.orders = deque(orders)
        self.left = 0         # events left of the line that was begun
        self.begun = None     # its thread
        self.threads = threads
        self.next = 0         # the thread whose turn it is after the last line

    def give(self):
        """The thread of the next event, or None where no thread can have one."""
        if self.left:
            self.left -= 1
            return self.begun
        while self.orders and any(thread.can_go_on() for thread in self.threads):
            number, events = self.orders.popleft()
            if self.threads[number].can_go_on():
                self.begun, self.left = self.threads[number], events - 1
                return self.begun
        return self.in_turn()

    def in_turn(self):
        for _ in self.threads:
            thread = self.threads[self.next]
            self.next = (self.next + 1) % len(self.threads)
            if thread.can_go_on():
                return thread
        return None

    def had(self, thread):
        """The thread has had its event. A line ends where its thread comes to wait or to its end."""
        if not thread.can_go_on():
            self.left = 0


class Report(NamedTuple):
    """What came of a run."""
    threads: list
    halt: str             # the line that tells why all threads were halted, or nothing
    journal: list
    history: list


class Run:
    """A run of a script."""

    def __init__(self, script, options, words_on_disk, say=None):
        self.options, self.say = options, say
        self.disk = Disk(options.disk, words_on_disk)
        self.heap = Heap(options.heap, script.globals, options.forward)
        self.threads = [Thread(number, program) for number, program in enumerate(script.programs)]
        self.is_alone = len(self.threads) == 1 and not say   # nobody sees that a call is made of events
        self.calls = Calls(self.heap, self.disk, say)
        self.turns = Turns(script.orders, self.threads)
        self.planned = INACTIVE
        self.journal = []
        self.events = 0

    def report(self):
        """Runs to the end, or to where a collection is not made."""
        halt = ""
        try:
            while (thread := self.turns.give()) or not self.is_over():
                if thread:
                    self.event(thread)
                    self.turns.had(thread)
                else:
                    self.all_wait()
        except Full as full:
            halt = f"halt disk-full {full.end} {full.need} {full.limit}"
        except Failed:
            halt = "halt disk-fault"
        for thread in self.threads:
            if thread.mode is not ENDED:
                thread.finish("end halted")
        return Report(self.threads, halt, self.journal, self.calls.history)

    def is_over(self):
        return all(thread.mode is ENDED for thread in self.threads)

    # events

    def event(self, thread):
        """One event of a thread."""
        self.events += 1
        if thread.mode is DUE:
            self.ask(thread, SILENT, "asks for a silent collection, and waits")
        elif thread.operation.word == "collect":
            self.ask(thread, COLLECTING, "asks for a collection, and waits")
        else:
            self.call_event(thread)

    def ask(self, thread, mode, text):
        self.calls.stop = True
        thread.mode = mode
        self.tell(thread, text)

    def call_event(self, thread):
        """One event of the operation that a thread is at; or all of them, where nobody sees them."""
        if thread.call is None:
            thread.call = self.call_of(thread)
        try:
            text = next(thread.call)
            while self.is_alone:
                next(thread.call)
            if self.say:
                self.tell(thread, text)
        except StopIteration as over:
            thread.call = None
            self.over(thread, over.value)
        except (Failed, Damaged) as fault:
            self.lose(thread, fault)

    def lose(self, thread, fault):
        """Ends a thread that reads no record."""
        self.tell(thread, f"reads no record, and ends: {fault}")
        thread.finish(f"end {fault}")

    def call_of(self, thread):
        return getattr(self.calls, thread.operation.word)(thread, *thread.operation.numbers)

    def over(self, thread, answer):
        """The last event of an operation was made, or the thread came to wait."""
        if isinstance(answer, Refused):
            thread.mode, thread.need = answer
            self.tell(thread, answer.why)
        else:
            self.tell(thread, f"is answered {answer}")
            self.reply(thread, answer)

    def reply(self, thread, answer):
        """An operation is answered: the thread comes to a silent collection, its next operation or its end."""
        thread.replies.append(answer)
        if self.options.every and len(thread.replies) % self.options.every == 0:
            thread.mode = DUE
        else:
            self.advance(thread)

    def advance(self, thread):
        thread.advance()
        if thread.mode is ENDED and self.say:
            self.say(f"       thread {thread.number} ends, and holds nothing")

    # what is done while no thread can have an event

    def all_wait(self):
        if self.say:
            self.say("       all threads wait or have ended")
        collected = self.own_collections()
        lacking = next((thread for thread in self.threads if thread.mode in (LACKING, ALL_FILLED)), None)
        if lacking is not None:
            if not collected:
                self.collect(f"for thread {lacking.number}")
            self.serve(lacking)
        if self.is_over():
            return
        if lacking is None or self.calls.stop:
            self.calls.begin()
        for thread in self.threads:
            if thread.mode in (ASKED, LACKING, ALL_FILLED):
                thread.mode = RUNS

    def own_collections(self):
        """One collection for each thread that waits for one of its own; whether there was any."""
        waiting = [thread for thread in self.threads if thread.mode in (SILENT, COLLECTING)]
        for thread in waiting:
            self.collect(f"of thread {thread.number}")
            if thread.mode is SILENT:
                self.advance(thread)
            else:
                self.tell(thread, "is answered ok")
                self.reply(thread, "ok")
        return bool(waiting)

    def serve(self, thread):
        """Makes the call of a thread that lacked room or an empty forwarding word as a whole, or ends the thread where
        what registers hold leaves it no room. A disk that lies can leave none after two Moves either."""
        moves = 0
        while not self.is_made(thread):
            held = words_held(self.threads)
            if held + thread.need > self.heap.size or moves == 2:
                self.end_out_of_heap(thread, held)
                return
            self.collect(f"for thread {thread.number} once more", MOVE)
            moves += 1

    def is_made(self, thread):
        """Makes a call alone in a new epoch, from its beginning; whether it was answered, or ended its thread."""
        self.calls.begin()
        call = self.call_of(thread)
        try:
            while True:
                next(call)
        except StopIteration as over:
            answer = over.value
        except (Failed, Damaged) as fault:
            self.lose(thread, fault)
            return True
        if isinstance(answer, Refused):
            thread.mode, thread.need = answer
            self.tell(thread, "is made alone, and finds no room")
            return False
        self.tell(thread, f"is made alone, and is answered {answer}")
        self.reply(thread, answer)
        return True

    def end_out_of_heap(self, thread, held):
        if self.say:
            self.say(f"       thread {thread.number} ends out of heap: {held} words stay, {thread.need} are needed")
        thread.finish(f"end out-of-heap {held} {thread.need}")

    def collect(self, why, phase=None):
        """A collection of this phase, or of the planned one, which plans the next."""
        entry = collect(self.heap, self.disk, self.threads, phase or self.planned)
        self.journal.append(entry)
        self.planned = next_phase(entry, self.options)
        if self.say:
            records = f"; {entry.bodies} Bodies and {entry.stubs} Stubs, the disk ends before word {entry.end}"
            self.say(f"       collection {why}: {entry.phase}; {entry.live} words in use, {entry.held} held"
                     f"{records if entry.end > 1 else ''}; the next is {self.planned}")

    def tell(self, thread, text):
        if self.say:
            self.say(f"{self.events:>5}  thread {thread.number}  {str(thread.operation or ''):<14}  {text}")
