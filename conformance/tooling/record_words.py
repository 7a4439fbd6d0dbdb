"""Tests of the words of tools/record, its statuses, and its files."""
import os
import pathlib
import resource
import shutil
import signal
import subprocess
import time

from tooling.calls import RECORD, no_files, operations, program, record, recorded, replay, rows, uses

MARK = "import pathlib\npathlib.Path('ran').touch()\n"
SMALL = MARK + "class Thing: pass\nthings = []\nfor n in range(5):\n    things.append(Thing())\n"
WAITS = """class Thing: pass
things = []
print("ready", flush=True)
while True:
    things.append(Thing())
    things[-1].before = things[-2:]
    del things[:-50]
"""


def test_help(folder):
    """--help is answered on standard output, and a reader may leave."""
    ran = record("--help")
    assert ran.status == 0 and ran.out.startswith("tools/record") and not ran.told, ran
    assert ran.out == record("-h").out
    with open("told", "w") as told:
        left = subprocess.Popen([RECORD, "--help"], stdout=subprocess.PIPE, stderr=told)
        left.stdout.close()
        left.wait()
    assert pathlib.Path("told").read_text() == ""


def test_no_standard_error(folder):
    """Where standard error is closed, nothing is told, by standard output neither."""
    for words, status in ((["--force", program("small.py", SMALL)], 0), (["nowhere.py"], 1)):
        ran = subprocess.run(["sh", "-c", '"$@" 2>&-', "sh", RECORD, *words], stdout=subprocess.PIPE, text=True)
        assert (ran.returncode, ran.stdout) == (status, ""), ran
    replay("small")


def test_bad_words(folder):
    """Bad words are told with status 1, and nothing is run."""
    small = program("small.py", SMALL)
    for words in ([], ["--window", "0", small], ["--window", "-1", small], ["--window", "1.5", small], ["--window"],
                  ["--from-use", "0", small], ["--operations", "1048577", small], ["--operations", "0", small],
                  ["--other", small], ["nowhere.py"], ["."],
                  ["--watch", "nowhere", small], ["--watch", "json,json.nowhere", small], ["--watch", "_thread", small],
                  ["--full", "--check-fast", small]):
        ran = record(*words)
        assert ran.status == 1 and ran.told.startswith("record: ") and not ran.out, (words, ran)
    no_files()
    assert not os.path.exists("ran")


def test_no_program(folder):
    """A file that is no program is refused."""
    for text in ("x = (\n", "a\0b"):
        ran = record(program("bad.py", text))
        assert ran.status == 2 and "is no program" in ran.told, ran
    no_files()


def test_force(folder):
    """A file that is there is not replaced, and nothing is run, unless it is asked for."""
    small = program("small.py", SMALL)
    for ending in (".trace", ".kinds", ".expect"):
        pathlib.Path(f"small{ending}").write_text("mine")
        ran = record(small)
        assert ran.status == 3 and "--force" in ran.told, ran
        assert pathlib.Path(f"small{ending}").read_text() == "mine" and not os.path.exists("ran")
        os.remove(f"small{ending}")
    recorded("small", small)
    assert record(small).status == 3
    recorded("small", "--force", small)
    assert len(list(folder.iterdir())) == 5


def test_out(folder):
    """--out says where the files are, also where the program goes elsewhere."""
    os.mkdir("inner")
    small = program("small.py", SMALL + "import os\nos.chdir('/')\n")
    recorded("inner/name", "--out", "inner/name", small)
    ran = record("--out", "nowhere/name", program("other.py", "import pathlib\npathlib.Path('other-ran').touch()\n"))
    assert ran.status == 3 and not os.path.exists("other-ran"), ran


def test_no_space(folder):
    """Where there is no space, there is no file, whole or half."""
    small = program("small.py", SMALL)
    ran = record(small, preexec_fn=lambda: resource.setrlimit(resource.RLIMIT_FSIZE, (100, 100)))
    assert ran.status == 3 and "could not be written" in ran.told, ran
    no_files()


def test_nothing(folder):
    """A program that ends before recording begins leaves nothing."""
    ran = record("--from-use", 100, program("small.py", SMALL))
    assert ran.status == 3 and "nothing was recorded" in ran.told, ran
    no_files()


def test_from_use(folder):
    """What was there before the first recorded use is there, and uses count from there on."""
    lines = "class Thing: pass\nthings = [Thing() for n in range(30)]\nfor thing in things:\n    thing.name = 1\n"
    late = program("late.py", lines)
    recorded("late", "--window", 4, "--from-use", 13, late)
    assert uses("late") == 32 - 12 and len(rows("late", "Thing")) == 30
    assert sum(row[5] != "-" for row in rows("late", "Thing")) == 20


def test_full(folder):
    """The recording ends before a limit with a whole trace, says at which use, and the program goes on."""
    text = "class Thing: pass\nthings = []\nfor n in range(2000):\n    things.append(Thing())\n    things[n].n = n\nprint('end')\n"
    full = program("full.py", text)
    ran = recorded("full", "--window", 50, "--operations", 1000, full)
    assert ran.out == "end\n" and "the trace is full" in ran.told, ran
    assert f"stopped after use {uses('full')}" in ran.told and 700 < len(operations("full")) <= 1000
    os.mkdir("none")
    ran = record("--out", "none/full", "--operations", 10, full)
    assert ran.status == 3 and "the trace is full" in ran.told and ran.out == "end\n", ran
    no_files("none")


def test_limits(folder):
    """The limits are those of a trace, in bytes too."""
    from modelling.traces import LARGEST_INPUT, MOST_OPERATIONS
    from recording import trace
    assert (trace.MOST_BYTES, trace.MOST_OPERATIONS) == (LARGEST_INPUT, MOST_OPERATIONS)
    empty = len(trace.HEAD + trace.END)
    for most, fits in ((empty + 20, True), (empty + 19, False)):
        whole = trace.Trace(100, most)
        lines = trace.Lines(whole, 1)
        lines.new(0, 1, 1)
        assert whole.take(lines) == fits
        assert sum(map(len, whole.texts())) == (empty + 20 if fits else empty)


def test_fails(folder):
    """A program that fails is recorded up to there, and its own status told."""
    for name, end, status in (("raises", "raise ValueError('so')", 1), ("exits", "raise SystemExit(7)", 7), ("says", "exit('why')", 1)):
        ran = recorded(name, program(f"{name}.py", f"{SMALL}{end}\n"))
        assert f"the program ended with status {status}" in ran.told, ran
        assert len(rows(name, "Thing")) == 5
    assert "why" in ran.told
    raises = record("--force", "raises.py").told
    assert "Traceback" in raises and "ValueError: so" in raises and "recording" not in raises, raises


def test_leaves(folder):
    """So is one that leaves at once, and a child process writes nothing."""
    ran = recorded("leaves", program("leaves.py", f"{SMALL}import os\nprint('so', flush=True)\nos._exit(5)\n"))
    assert ran.out == "so\n" and "os._exit(5)" in ran.told, ran
    ran = record("--force", "--window", 1, "--operations", 100, "leaves.py")
    assert ran.status == 0 and "the trace is full" in ran.told, ran
    forks = SMALL + "import os\nif os.fork() == 0:\n    things.append(Thing())\n    raise SystemExit(9)\nprint(os.wait()[1] >> 8)\n"
    assert recorded("forks", program("forks.py", forks)).out == "9\n"
    assert len(rows("forks", "Thing")) == 5


def test_signals(folder):
    """Ctrl-C and SIGTERM end the recording and the program, and what there is is kept, in the midst of windows too."""
    waits = program("waits.py", WAITS)
    for number, window in ((signal.SIGINT, 1500), (signal.SIGTERM, 7), (signal.SIGINT, 1)):
        words = [RECORD, "--force", "--window", str(window), waits]
        ran = subprocess.Popen(words, stdout=subprocess.PIPE, stderr=subprocess.PIPE, text=True)
        assert ran.stdout.readline() == "ready\n"
        while ran.poll() is None and not is_under_way(ran.pid):
            time.sleep(0.02)
        ran.send_signal(number)
        _, told = ran.communicate(timeout=60)
        assert ran.returncode == 0 and "it was interrupted" in told and "Traceback" not in told, told
        replay("waits")


def is_under_way(process):
    """Whether it has used the processor for a while, as its time in hundredths says."""
    fields = pathlib.Path(f"/proc/{process}/stat").read_text().rpartition(")")[2].split()
    return int(fields[11]) + int(fields[12]) > 30


def test_pipe(folder):
    """A reader that leaves ends the program, and what there is is kept."""
    text = SMALL + "while True:\n    print('line', flush=True)\n"
    ran = subprocess.Popen([RECORD, program("prints.py", text)], stdout=subprocess.PIPE, stderr=subprocess.PIPE, text=True)
    ran.stdout.readline()
    ran.stdout.close()
    told = ran.stderr.read()
    assert ran.wait() == 0 and "Traceback" not in told and "Broken" not in told, told
    replay("prints")


def test_progress(folder):
    """On a terminal there is a line that tells how far it is."""
    if not shutil.which("script"):
        print("test_progress: there is no command `script`, so no terminal")
        return
    program("small.py", SMALL)
    ran = subprocess.run(["script", "-qec", f"{RECORD} --window 2 small.py", "/dev/null"], capture_output=True)
    assert ran.stdout.count(b"\rrecord: ") > 2, ran
