"""Runs tools/record on small programs, and replays what it wrote."""
import os
import pathlib
import subprocess
import sys
from typing import NamedTuple

from modelling.program import answer

TOP = pathlib.Path(__file__).resolve().parents[2]
RECORD = TOP / "tools/record"
REAL = TOP / "examples/real"
BUILT = pathlib.Path(os.environ.get("MELT_PROGRAM") or TOP / "crates/melt_top/out/melt_top").absolute()
PROGRAM = BUILT if os.access(BUILT, os.X_OK) else None
ENDINGS = ".trace", ".kinds", ".expect"
SECONDS = 120

# Words of `step`: a heap in which nothing is collected; and such that objects move and come back, in a smaller one, since each
# collection takes a new heap of that size.
AMPLE = ["--heap", "4194304"]
MOVING = ["--mark", "0", "--move", "0", "--every", "97"]
IN_LESS = ["--heap", "262144"]

sys.path.insert(0, str(TOP / "tools"))     # for tests of parts of the tools


class Ran(NamedTuple):
    status: int
    out: str
    told: str


def record(*words, **given):
    """Runs the recorder."""
    ran = subprocess.run([str(RECORD), *map(str, words)], capture_output=True, text=True, timeout=SECONDS, **given)
    return Ran(ran.returncode, ran.stdout, ran.stderr)


def program(name, text):
    """A program of this text, in this folder."""
    path = pathlib.Path(name)
    path.write_text(text)
    return path


def recorded(name, *words, **given):
    """Runs the recorder on a program, which has to be recorded, and replays that."""
    ran = record(*words, **given)
    assert ran.status == 0, ran
    replay(name)
    return ran


def replay(name, *more_words):
    """Each way to run a trace has to print what was foretold, where it ends done."""
    data = pathlib.Path(f"{name}.trace").read_bytes()
    wanted = "".join(pathlib.Path(f"{name}.expect").read_text().splitlines(True)[:4]).encode()
    for words in (AMPLE, [*IN_LESS, *MOVING], *more_words):
        assert answer(["step", "--quiet", *words], lambda: data) == (0, wanted), words
        for command in ("step", "run") if PROGRAM else ():
            ran = subprocess.run([PROGRAM, command, "--quiet", *words], input=data, stdout=subprocess.PIPE, timeout=SECONDS)
            assert (ran.returncode, ran.stdout) == (0, wanted), (command, words)


def uses(name):
    """How many uses are told."""
    word, number = pathlib.Path(f"{name}.expect").read_text().splitlines()[4].split()
    assert word == "uses"
    return int(number)


def operations(name):
    return pathlib.Path(f"{name}.trace").read_text().splitlines()[4:-1]


def rows(name, kind=None):
    """The rows of NAME.kinds, or those of objects of one kind."""
    lines = [line.split("\t") for line in pathlib.Path(f"{name}.kinds").read_text().splitlines()[6:]]
    return [row for row in lines if kind is None or row[0] == "object" and row[7] == kind]


def no_files(folder="."):
    """No file of a recording is there, whole or not."""
    found = [path.name for path in pathlib.Path(folder).iterdir() if path.suffix in (*ENDINGS, ".part")]
    assert not found, found
