"""Runs tools/heaps and tools/who on small traces, by the program, by the model, or by a program that fails."""
import csv
import importlib.machinery
import importlib.util
import os
import pathlib
import shlex
import subprocess
import sys
from typing import NamedTuple

from modelling.disk import Disk, WordsInMemory
from modelling.heap import Heap
from modelling.program import gen
from modelling.running import Run
from modelling.traces import script_of
from modelling.words import Gen, meant
from tooling.calls import PROGRAM, SECONDS, TOP, Ran

HEAPS = TOP / "tools/heaps"
WHO = TOP / "tools/who"
# The model takes the same words, and so stands for the program where there is none.
MELT = PROGRAM or TOP / "conformance/model"
PLAIN = ["--disk", "2", "--mark", "100", "--move", "100"]


def tool(path, *words, melt=MELT, **given):
    """Runs a tool, which has this program."""
    env = {**os.environ, "MELT_PROGRAM": str(melt), **given.pop("env", {})}
    ran = subprocess.run([sys.executable, "-B", path, *map(str, words)], capture_output=True, text=True, timeout=SECONDS, env=env, **given)
    assert "Traceback" not in ran.stderr, ran.stderr
    return Ran(ran.returncode, ran.stdout, ran.stderr)


def heaps(*words, **given):
    return tool(HEAPS, *words, **given)


def who(*words, **given):
    return tool(WHO, *words, **given)


def loaded(path):
    """A tool as a module, of which parts are called here: many words are tried in the time of one start."""
    name = f"tool_{path.name}"
    if name not in sys.modules:
        loader = importlib.machinery.SourceFileLoader(name, str(path))
        module = sys.modules[name] = importlib.util.module_from_spec(importlib.util.spec_from_loader(name, loader))
        loader.exec_module(module)
    return sys.modules[name]


def told_by(function, *arguments):
    """How a part of a tool ends it: the status, and what is told."""
    from common.words import Told
    try:
        function(*arguments)
    except Told as told:
        return told.status, " ".join(told.sentences)
    return 0, ""


def rows_of(text):
    """The rows of a table with commas, each by the names of its columns."""
    return list(csv.DictReader(text.splitlines()))


def trace(name, *lines, threads=1):
    """A trace of one thread, or of the lines from `thread 0` on."""
    body = ["thread 0", *lines, "done"] if threads == 1 else lines
    path = pathlib.Path(f"{name}.trace")
    path.write_text("\n".join(["melt 1", f"threads {threads}", "globals 4", *body]) + "\n")
    return path


def generated(kind, size, threads=1):
    """A trace from a number."""
    path = pathlib.Path(f"{kind}.trace")
    path.write_bytes(gen(Gen(kind, 7, size, threads))[1])
    return path


def program_that(name, text):
    """A program that does this, by a shell, in which $MELT is the true one and $heap the number of words."""
    path = pathlib.Path(name).absolute()
    path.write_text(f"#!/bin/bash\nMELT={shlex.quote(str(MELT))}\nheap=${{@: -1}}; heap=${{heap#*=}}\n{text}\n")
    path.chmod(0o755)
    return path


def leave_file(path, *words):
    """Runs a trace here, which leaves its file melt.stale."""
    subprocess.run([MELT, "step", *words], input=pathlib.Path(path).read_bytes(), stdout=subprocess.DEVNULL, check=True)


class Counted(NamedTuple):
    """What the model counted in a run."""
    report: object
    came_back: int
    on_disk: list              # the objects that have a Body as their last record


def counted(path, words, has_collects=True):
    """Runs a trace by the model, which counts each object that comes back, and keeps what leaves."""
    text = pathlib.Path(path).read_text()
    script = script_of((text.replace("done\n", "collect\ndone\n") if has_collects else text).encode())
    run = Run(script, meant(["step", *words]), WordsInMemory())
    run.heap, run.disk = CountingHeap.of(run.heap), CountingDisk.of(run.disk)
    run.calls.heap, run.calls.disk = run.heap, run.disk
    report = run.report()
    return Counted(report, run.heap.came_back, list(run.disk.away.values()))


class CountingHeap(Heap):
    @classmethod
    def of(cls, heap):
        heap.__class__, heap.came_back = cls, 0
        return heap

    def fill_forward(self, place, home, obj):
        self.came_back += 1
        super().fill_forward(place, home, obj)


class CountingDisk(Disk):
    @classmethod
    def of(cls, disk):
        disk.__class__, disk.away = cls, {}
        return disk

    def write_body(self, obj):
        self.away[obj.home] = obj
        super().write_body(obj)

    def write_stub(self, obj):
        self.away.pop(obj.home, None)
        super().write_stub(obj)


def is_done(path, words):
    """Whether the model comes to the end of a trace with these words, and nothing added to it."""
    return all(thread.end == "end done" for thread in counted(path, words, has_collects=False).report.threads)
