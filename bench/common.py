"""What bench/run, bench/collect, bench/disk, bench/gen, bench/flags, bench/start, bench/beside, bench/leak, bench/reload,
bench/move, bench/epoch and bench/threads share: the programs, the plain ones, the largest traces, and how a process is
measured."""
import bisect
import importlib.machinery
import importlib.util
import os
import pathlib
import re
import shutil
import statistics
import subprocess
import sys
import tempfile
import time
from typing import NamedTuple

HERE = pathlib.Path(__file__).resolve().parent
PROGRAM = HERE.parent / "crates/melt_top/out/melt_top"
BENCH = HERE.parent / "crates/melt_bench/out/melt_bench"
KINDS = ["list", "queue", "table", "tree"]
SIZES = range(1, 100001)  # objects of each thread
MEASURE = "/usr/bin/time"
USAGE = 1  # the status of words that ask for too many operations


class Cost(NamedTuple):
    seconds: float
    processor: float  # seconds too, of this process alone


def fail(text):
    sys.exit(f"bench/{pathlib.Path(sys.argv[0]).name}: {text}")


def built(program):
    """The path of the program, where it is there."""
    path = os.path.realpath(program)
    if not os.access(path, os.X_OK):
        fail(f"{program} is not there: run ./melt once, which builds it")
    return path


def command(program, name):
    """The first words of this command of the crate `melt_bench`, where its program is there."""
    path = os.path.realpath(program)
    if not os.access(path, os.X_OK):
        fail(f"{program} is not there: `rt run -- disk 16` in crates/melt_bench builds it")
    return [path, name]


def script(name):
    """The script of this folder with that name, as a module."""
    loader = importlib.machinery.SourceFileLoader(name, str(HERE / name))
    module = importlib.util.module_from_spec(importlib.util.spec_from_loader(name, loader))
    loader.exec_module(module)
    return module


def compiled_file(path, folder):
    """The program of a file in C, put into this folder."""
    program = pathlib.Path(folder, path.stem)
    subprocess.run([os.environ.get("CC", "gcc"), "-O2", "-Wall", "-o", program, path], check=True)
    return str(program)


def compiled(source, folder):
    """A program of this text in C."""
    path = pathlib.Path(folder, "plain.c")
    path.write_text(source)
    return compiled_file(path, folder)


def peer(name, folder):
    """The plain program of this name from bench/peers."""
    return compiled_file(HERE / "peers" / f"{name}.c", folder)


def run(words, given=subprocess.DEVNULL, into=subprocess.DEVNULL, folder=None, wanted=0):
    """Runs a process once, with its input from a file and its output into one, in this folder. Answers what it took.
    Where another status than 0 is wanted, what it says of that on standard error is dropped."""
    if given != subprocess.DEVNULL:
        given.seek(0)
    if into != subprocess.DEVNULL:
        into.seek(0)
        into.truncate()
    begun = time.perf_counter()
    child = subprocess.Popen(words, stdin=given, stdout=into, stderr=subprocess.DEVNULL if wanted else None, cwd=folder)
    _, status, usage = os.wait4(child.pid, 0)
    seconds = time.perf_counter() - begun
    child.returncode = os.waitstatus_to_exitcode(status)
    if child.returncode != wanted:
        fail(f"{' '.join(map(str, words))} ended with status {child.returncode}")
    return Cost(seconds, usage.ru_utime + usage.ru_stime)


def peak(words, given=subprocess.DEVNULL, into=subprocess.DEVNULL, folder=None, wanted=0):
    """The peak of memory in MiB, or None where GNU time is missing."""
    if not os.access(MEASURE, os.X_OK):
        return None
    with tempfile.NamedTemporaryFile() as told:
        run([MEASURE, "-f", "%M", "-o", told.name, *words], given, into, folder, wanted)
        return int(told.read().split()[-1]) / 1024


def instructions(words, given=subprocess.DEVNULL, wanted=0):
    """How many instructions a process takes outside the system, or None where valgrind is missing."""
    if shutil.which("valgrind") is None:
        return None
    with tempfile.NamedTemporaryFile("r") as told, tempfile.TemporaryDirectory() as folder:
        run(["valgrind", "--tool=cachegrind", "--cache-sim=no", "--cachegrind-out-file=/dev/null",
             f"--log-file={told.name}", *words], given, folder=folder, wanted=wanted)
        return int(re.search(r"I +refs: +([\d,]+)", told.read())[1].replace(",", ""))


def least(costs):
    """The best time of each sort."""
    return Cost(*map(min, zip(*costs)))


def written(words, given=subprocess.DEVNULL, folder=None):
    """What a process writes to its output, in this folder."""
    with tempfile.TemporaryFile() as into:
        run(words, given, into, folder)
        into.seek(0)
        return into.read()


def processor(words, given=subprocess.DEVNULL):
    """The time of the processor that one run takes, in a new folder."""
    with tempfile.TemporaryDirectory() as folder:
        return run(words, given, folder=folder).processor


def more(longer, shorter, repeats):
    """How much more the first call answers than the second, and how far that is known: the median of the differences of so many
    pairs, and half the way between their quartiles."""
    differences = sorted(longer() - shorter() for _ in range(repeats))
    low, median, high = statistics.quantiles(differences, n=4)
    return median, (high - low) / 2


def gen(program, kind, seed, size, threads):
    """The words that make a trace."""
    return [program, "gen", "--kind", kind, "--seed", str(seed), "--size", str(size), "--threads", str(threads)]


def largest(program, kind, seed, threads):
    """The largest size that `melt gen` accepts."""
    def is_refused(size):
        return subprocess.run(gen(program, kind, seed, size, threads), stdout=subprocess.DEVNULL).returncode == USAGE
    return SIZES[bisect.bisect_left(SIZES, True, key=is_refused) - 1]


def shown(number, form):
    """The number in this form, or a dash as wide where it is not known."""
    return format("-", form.split(".")[0].rstrip("d")) if number is None else format(number, form)
