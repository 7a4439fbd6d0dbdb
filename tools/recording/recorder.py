"""The recorder: counts the uses of a program, ends a window after each N of them, and stops where the trace is full.

While a window ends, the program stands: other threads wait at their next use. What lives when it ends is seen, and what was made and
went away within it is not.
"""
import gc
import sys
from _thread import RLock, interrupt_main

from recording.graph import Block, Change, Graph, Node, Ways
from recording.rewriting import USE, Finder, Loader
from recording.roles import LONG, NOTHING, ROLES, TEXT, hidden
from recording.roots import Modules, frame_values
from recording.shelf import Shelf, TooMuch
from recording.trace import Lines, Trace
from recording.window import Window

FAST, FULL, BOTH = "fast", "full", "both"
OWN = Graph, Node, Block, Change, Ways, Modules, Trace, Lines, Window, Shelf, Finder, Loader      # no objects of a program
INTERRUPTED = "it was interrupted"
DEPTH = 500                # calls that the end of a window may take beyond what the program is allowed


class WithoutCollections:
    """Python collects no garbage meanwhile: it would go through all that is made here. This is no function of `contextlib`, which catches
    an exception: a generator of the program that is running keeps a trace of that."""

    def __enter__(self):
        self.collects = gc.isenabled()
        gc.disable()

    def __exit__(self, *_):
        if self.collects:
            gc.enable()


class Recorder:
    """`on_window` is told of the recorder after each window, and `on_stop` once, when nothing more will be recorded."""

    def __init__(self, trace, window, first_use, way, on_window, on_stop):
        self.trace, self.window, self.first_use, self.way = trace, window, first_use, way
        self.on_window, self.on_stop = on_window, on_stop
        self.modules = Modules()
        self.graph, self.over = Graph(), None      # a graph that is over is let go as soon as nothing waits for this
        self.lock = RLock()
        self.is_busy = self.was_interrupted = False
        self.signal = None         # the number of one that came while this was busy
        self.stopped = self.failed = None     # why no more is recorded; what went wrong
        self.has_begun = first_use == 1
        self.length = window if self.has_begun else first_use - 1
        self.counted = 0           # uses after the ends of windows
        self.used = {}
        self.use, self.left = self.counter(self.length)
        hidden.update(map(id, (self.use, self.used, self.__dict__)))
        ROLES.update(dict.fromkeys((Recorder, *OWN), NOTHING))

    def counter(self, first):
        """A function that notes a use and answers the object, and one that answers how many are left in the window, and sets that."""
        used, roles, left = self.used, ROLES, first

        def use(thing):
            nonlocal left
            role = roles[type(thing)]
            if role > TEXT or role is TEXT and len(thing) >= LONG:
                used[id(thing)] = thing
                left -= 1
                if left <= 0:
                    self.end_window(sys._getframe(1))
            return thing

        def uses_left(number=None):
            nonlocal left
            before = left
            left = left if number is None else number
            return before

        return use, uses_left

    def begin_module(self, module, called=None):
        """Before the code of a watched module runs."""
        module.__dict__[USE] = self.use
        self.modules.add(module, called or module.__name__)

    def uses(self):
        """How many uses there were."""
        return self.counted + self.length - self.left()

    # ------------------------------------------------------------ windows

    def end_window(self, frame, is_last=False):
        """Ends a window where it is full, or where there will be no other one."""
        with self.lock:
            if self.is_busy or (self.left() > 0 and not is_last):
                return
            self.counted, self.length = self.uses(), self.window
            self.left(self.window)
            used = dict(self.used) if self.has_begun else {}
            self.used.clear()
            if self.stopped or (is_last and not self.has_begun):
                return
            self.has_begun, self.is_busy = True, True
            change = self.guarded(used, frame)
            self.is_busy = False
        used.clear()
        if change:
            change.release()
        self.let_go()
        if self.signal:
            interrupt_main(self.signal)

    def guarded(self, used, frame):
        """Ends a window. What goes wrong ends the recording and not the program. Answers what was changed."""
        depth = sys.getrecursionlimit()
        sys.setrecursionlimit(depth + DEPTH)
        try:
            with WithoutCollections():
                return self.record(used, frame)
        except TooMuch:
            self.stop("a window changed more objects than a trace can be told at once")
        except Exception as error:
            self.failed = error
            self.stop(f"the recorder failed: {type(error).__name__}: {error}")
        finally:
            sys.setrecursionlimit(depth)

    def record(self, used, frame):
        change = self.find([self.modules.values(), frame_values(frame)])
        lines = Lines(self.trace, self.counted)
        nodes = self.graph.nodes
        there = {node: None for identity, thing in used.items() if (node := nodes.get(identity)) and node.thing is thing}
        Window(self.graph, change, there, lines).write()
        if self.trace.take(lines):
            self.on_window(self)
        else:
            self.stop("the trace is full")
        return change

    def find(self, held):
        """What changed, by comparing or by a walk to all objects, or by both, which have to find the same."""
        walked = None
        if self.way == FULL:
            changed, walked = self.graph.by_walking(held)
        else:
            changed = self.graph.by_comparing(held)
        if self.way == BOTH:
            walked = self.graph.walk(held)
        change = self.graph.update(changed)
        if walked:
            self.graph.compare(walked)
        return change

    # ------------------------------------------------------------ the end

    def stop(self, why):
        """Records no more."""
        if self.stopped is None:
            self.stopped = why
            busy, self.is_busy = self.is_busy, True       # a signal waits until the files are written
            with WithoutCollections():
                if not self.failed:
                    self.tell_holders()
                self.on_stop(self)
            self.over, self.graph, self.is_busy = self.graph, None, busy

    def tell_holders(self):
        """Writes down what holds each object that is there."""
        rows = self.trace.rows
        for node, way in self.graph.told_ways(self.modules.names()).items():
            if node.form and node.form.head.identity <= len(rows):
                rows[node.form.head.identity - 1].held = way

    def let_go(self):
        """Lets go the objects of the program, by which code of it may run, that may wait for other threads."""
        over, self.over = self.over, None
        if over:
            over.dissolve()

    def finish(self, why):
        """Ends the last window, when the program has come to its end or is to come there."""
        self.end_window(sys._getframe(1), is_last=True)
        with self.lock:
            self.stop(why)
        self.let_go()

    def on_signal(self, number, frame):
        """Ctrl-C, or what is meant so: the recording ends, and then the program."""
        if self.is_busy:
            self.signal = number
            return
        self.signal, self.was_interrupted = None, True
        self.end_window(frame, is_last=True)
        with self.lock:
            self.stop(INTERRUPTED)
        self.let_go()
        raise KeyboardInterrupt
