"""Runs of the program, each in a folder of its own, so that none meets the disk of another.

What a run printed is taken as a whole or not at all: of a run that was killed, or whose lines are not those that docs/FORMATS.md has
for its status, nothing is believed.
"""
import contextlib
import os
import pathlib
import re
import resource
import signal
import subprocess
import tempfile
from typing import NamedTuple, Optional

from common.words import FAILED, REFUSED, WORDS, Told

TOP = pathlib.Path(__file__).resolve().parents[2]
# In a clone, and where tools/install has put it.
PLACES = TOP / "crates/melt_top/out/melt_top", TOP / "melt_top"
BUILT = next((place for place in PLACES if place.exists()), PLACES[0])
SCRIPT = TOP / "melt"
NOTHING = b"melt 1\nthreads 1\nglobals 0\nthread 0\ndone\n"

# Options that a run may be given. Those of the output and of the heap are the tools' own.
OPTIONS = "--forward", "--disk", "--mark", "--move", "--every"
# With these nothing can move: a disk without room, and a Move at the last moment alone.
PLAIN = {"--disk": 2, "--mark": 100, "--move": 100}
FORWARD = 1_024                # forwarding words, where --forward is not given

SIGNALS = signal.SIGINT, signal.SIGTERM
RAN, USAGE, BAD_TRACE, OUT_OF_HEAP, DISK_FULL = 0, 1, 2, 5, 6
WITH_LINES = RAN, 4, OUT_OF_HEAP, DISK_FULL, 9
OUTPUT = re.compile(
    r"((?:thread \d+\nreplies \d+\nsum \d+\nend [^\n]+\n)+)((?:halt [^\n]+\n)?)"
    r"number,phase,held,live,bodies,stubs,end\n((?:\d+,(?:inactive|mark|move)(?:,\d+){5}\n)*)", re.ASCII)


class Collection(NamedTuple):
    held: int
    live: int
    bodies: int
    stubs: int
    end: int


class Lines(NamedTuple):
    """What a run printed."""
    sums: list                 # for each thread
    fault: str                 # the first line that is not `end done`, or nothing
    collections: list


class Replay(NamedTuple):
    """A run, while its folder is there."""
    status: int
    seconds: float             # of the processor
    lines: Optional[Lines]     # None where it has not printed what it should
    stale: pathlib.Path

    @property
    def is_done(self):
        return self.status == RAN and self.lines is not None

    @property
    def end(self):
        """How it ended, in words."""
        if self.status < 0:
            return f"killed by {signal_name(-self.status)}"
        if self.lines is None:
            return f"{self.status} and its lines are not whole"
        return f"{self.status} {self.lines.fault}".strip()

    @property
    def tells_of_heap(self):
        """Whether it ended done, or for want of words of the heap or of the disk."""
        return self.lines is not None and self.status in (RAN, OUT_OF_HEAP, DISK_FULL)


def signal_name(number):
    try:
        return signal.Signals(number).name
    except ValueError:
        return f"signal {number}"


def lines_of(status, output, threads):
    """The lines of a run, or None where they are not whole."""
    found = OUTPUT.fullmatch(output) if status in WITH_LINES else None
    if found is None:
        return None
    of_threads = found[1].splitlines()
    faults = [line for line in [*of_threads[3::4], found[2].strip()] if line not in ("end done", "")]
    if of_threads[::4] != [f"thread {number}" for number in range(threads)] or bool(faults) == (status == RAN):
        return None
    collections = [Collection(*map(int, row.split(",")[2:])) for row in found[3].splitlines()]
    return Lines([int(line[4:]) for line in of_threads[2::4]], faults[0] if faults else "", collections)


class Melt:
    """The program, by one of its commands and with the options that each run of it has, as values by names."""

    def __init__(self, command="step", options=None, progress=lambda text: None):
        self.command, self.options, self.progress = command, options or {}, progress
        self.runs = 0
        self.program = pathlib.Path(os.environ.get("MELT_PROGRAM") or BUILT).absolute()
        if not self.program.is_file() or not os.access(self.program, os.X_OK):
            raise Told(FAILED, f"there is no program {self.program}. ./melt builds one, or MELT_PROGRAM names one")

    @property
    def forward(self):
        return int(self.options.get("--forward", FORWARD))

    def check_options(self):
        """Has the program judge the options, by a trace without operations."""
        with self.run(NOTHING, 1, 65_536):
            pass

    @contextlib.contextmanager
    def run(self, data, threads, heap, other=None):
        """Runs a trace, and removes the folder of the run after it. Words or a trace that are refused end the tool."""
        self.runs += 1
        self.progress(f"run {self.runs}, in a heap of {heap} words")
        options = {**self.options, **(other or {}), "--heap": heap}
        words = [self.program, self.command, "--quiet", "--table", *(f"{name}={value}" for name, value in options.items())]
        with tempfile.TemporaryDirectory(prefix="melt-") as folder:
            before = processor_time()
            status, output = called(words, data, folder)
            seconds = processor_time() - before
            if status == USAGE and output == "error usage\n":
                raise Told(WORDS, f"melt refuses these options: {' '.join(map(str, words[4:-1]))}. --help tells the words")
            if status == BAD_TRACE and output.startswith("error trace "):
                raise Told(REFUSED, f"this is no trace: {output.strip()}", *self.told_by_script(data))
            yield Replay(status, seconds, lines_of(status, output, threads), pathlib.Path(folder, "melt.stale"))

    def told_by_script(self, data, script=SCRIPT):
        """What the script says of a trace that is refused. It is asked only if it takes this program, since it builds one else."""
        if "MELT_PROGRAM" not in script.read_text():
            return ["the two numbers are its first bad line, and the reason by the list in docs/TRACES.md"]
        with tempfile.TemporaryFile() as file:
            file.write(data)
            file.seek(0)
            told = subprocess.run([script, self.command], stdin=file, stdout=subprocess.DEVNULL, stderr=subprocess.PIPE, text=True,
                                  env={**os.environ, "MELT_PROGRAM": str(self.program), "MELT_TELL": "1"})
        return [line.removeprefix("melt: ") for line in told.stderr.splitlines()]


def called(words, data, folder):
    """The status and the output of a program in this folder. Where we are interrupted, it has ended before its folder goes: so a
    signal that comes while it is started waits until it can be ended."""
    ran, before = None, signal.pthread_sigmask(signal.SIG_BLOCK, SIGNALS)

    def unblock():
        signal.pthread_sigmask(signal.SIG_SETMASK, before)
    try:
        ran = subprocess.Popen(words, stdin=subprocess.PIPE, stdout=subprocess.PIPE, cwd=folder, preexec_fn=unblock)
        unblock()
        output, _ = ran.communicate(data)
    except OSError as error:
        raise Told(FAILED, f"{words[0]} cannot be run: {error.strerror}") from None
    finally:
        if ran and ran.poll() is None:
            ran.kill()
            ran.wait()
        unblock()
    return ran.returncode, output.decode(errors="replace")


def processor_time():
    used = resource.getrusage(resource.RUSAGE_CHILDREN)
    return used.ru_utime + used.ru_stime


def failure(replay, heap):
    """The sentence that tells of a run which says nothing of heaps."""
    return f"the run in a heap of {heap} words failed: {replay.end}"
