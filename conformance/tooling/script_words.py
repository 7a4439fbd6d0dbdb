"""Tests of what the script `melt` says: its pages, and what it tells of words, inputs and folders. What it says of each case stands
beside that, and `conformance/run --script` compares it."""
import os
import pathlib
import pty
import random
import re
import select
import subprocess

from modelling.words import FLAGS, GEN_RANGES, KINDS, REAL_FLAGS, STEP_RANGES, Gen, Step, meant
from tooling.calls import SECONDS, TOP, Ran
from tooling.replays import MELT, program_that, trace

SCRIPT = TOP / "melt"
PARTS = TOP / "tools/script"
# Reads lists of words, each ended by an empty word, and prints what is wrong with each, and a line of its own after that.
JUDGES = """parts=$0; . "$parts/words.bash"; words=()
while IFS= read -r -d '' word; do
    if [[ $word == "$1" ]]; then wrong_words "${words[@]}"; echo "$1"; words=(); else words+=("$word"); fi
done"""
END = "-- the end --"


def melt(*words, program=MELT, **given):
    """Runs the script, which tells what a status means."""
    env = {**os.environ, "MELT_TELL": "1", "MELT_PROGRAM": str(program), **given.pop("env", {})}
    ran = subprocess.run([given.pop("script", SCRIPT), *map(str, words)], capture_output=True, text=True, timeout=SECONDS,
                         env={name: value for name, value in env.items() if value is not None}, **given)
    return Ran(ran.returncode, ran.stdout, ran.stderr)


def lines_of(ran):
    """What is told, without the name before each line."""
    assert all(line.startswith("melt: ") for line in ran.told.splitlines()), ran
    return [line.removeprefix("melt: ") for line in ran.told.splitlines()]


def judged(lists):
    """What is said to be wrong with each of these lists of words."""
    data = "".join("".join(f"{word}\0" for word in [*words, END]) for words in lists)
    ran = subprocess.run(["bash", "-uc", JUDGES, str(PARTS), END], input=data, capture_output=True, text=True, timeout=SECONDS, check=True)
    assert not ran.stderr, ran.stderr
    return [text.splitlines() for text in ran.stdout.split(f"{END}\n")[:-1]]


def any_words(rng):
    """Words by chance, most of them good."""
    command = rng.choice(["step", "step", "run", "gen", rng.choice(["Step", "", "check", "--heap"])])
    names = [*GEN_RANGES, "kind"] if command == "gen" else [*STEP_RANGES, *FLAGS]
    words = [command]
    for name in names if command == "gen" and rng.random() < 0.8 else rng.sample(names, rng.randrange(4)):
        low, high = {**STEP_RANGES, **GEN_RANGES}.get(name, (0, 0))
        value = rng.choice(KINDS) if name == "kind" else str(rng.choice([low, high, rng.randint(low, high)]))
        words += [f"--{name}"] if name in FLAGS else rng.choice([[f"--{name}", value], [f"--{name}={value}"]])
    bad = ["", "--", "-", "-1", "--quiet", "--heap", "16", "x", "--help", "--seed=1", "--log=", "--mark=81", "--move", "64k", "--kind=",
           f"{rng.randrange(2**65)}", "016", "a b", "--heap forward=16", "--héap", "[$(touch ran)]", "given[x]"]
    if rng.random() < 0.5:
        words.insert(rng.randrange(len(words) + 1), rng.choice(bad))
    return words


def test_script_words(folder):
    """Something is wrong with words exactly where they mean nothing. Good words of `gen` are refused where their trace is too long."""
    rng = random.Random(5)
    lists = [any_words(rng) for _ in range(250)]
    goods = [meant(words) for words in lists]
    assert 60 < sum(isinstance(good, Step) for good in goods) < 190 and sum(isinstance(good, Gen) for good in goods) > 9
    for words, good, wrong in zip(lists, goods, judged(lists)):
        if isinstance(good, Gen):
            assert wrong == [f"--size {good.size} --threads {good.threads}: the trace would have more than 1048576 operations"], (words, wrong)
        else:
            assert bool(wrong) == (good is None), (words, wrong)
    assert not os.path.exists("ran")


def test_script_first_wrong_word(folder):
    """Of several words that are wrong the first is told, and what is missing after all that stand there."""
    number = "a number of words from 16 to 4194304"
    for words, told in ((["step", "--heap", "64k", "--disk", "1"], f"--heap 64k: {number}, without a unit"),
                        (["step", "--quiet", "--heap", "16", "--heap", "x"], "--heap is given twice"),
                        (["run", "--log", "--heap", "1"], "--log: an option of step, and not of run."),
                        (["run", "--every=5", "--heap=1 6"], f"'--heap=1 6': {number}, in digits alone"),
                        (["gen", "--seed", "1", "--heap", "1"], "--heap: an option of step and run, and not of gen."),
                        (["gen", "--seed", "1", "--size", "1"], "--kind is missing: list, queue, table or tree")):
        assert judged([words])[0][0].startswith(told), words
    assert melt("step", "--hea", "16").told.endswith("melt: melt --help tells of all commands, options and statuses\n")
    pathlib.Path("a file").touch()
    assert lines_of(melt("step", "a file"))[1] == r"A trace comes from standard input, as in: melt step < a\ file"


def ranges_in(page):
    """The numbers that a page has for each option: the least, the greatest, and what stands where it is not given."""
    found = re.findall(r"^ *--(\w+) [NP].*?: (\d+) to (\d+)(?: \((\w+)\))?", page, re.MULTILINE)
    return {name: (int(least), int(most), default) for name, least, most, default in found}


def manual_page():
    """The manual page without its marks. Each paragraph is a line, with its name in front where it has one."""
    text = re.sub(r"\\f.|[\\\"]", "", (TOP / "docs/melt.1").read_text())
    paragraphs = re.split(r"^\.(?:TP|PP|SH|br)\b.*\n", text, flags=re.MULTILINE)
    return "\n".join(" ".join(re.sub(r"^\.BI? ", "", paragraph, flags=re.MULTILINE).split()) for paragraph in paragraphs)


def test_script_pages(folder):
    """The pages have the options of each command, with ranges and defaults, and each status; so has the manual page."""
    step = {name: (*STEP_RANGES[name], str(getattr(Step, name) or "none")) for name in STEP_RANGES}
    gen = {name: (*GEN_RANGES[name], "") for name in GEN_RANGES}
    manual = manual_page()
    pages = {name: melt(*words).out for name, words in (("melt", ["--help"]), ("step", ["step", "--help"]),
                                                        ("run", ["run", "--help"]), ("gen", ["gen", "--help"]))}
    assert ranges_in(pages["melt"]) == {**step, **gen} == ranges_in(manual), ranges_in(manual)
    assert ranges_in(pages["step"]) == ranges_in(pages["run"]) == step and ranges_in(pages["gen"]) == gen
    for name, flags in (("melt", FLAGS), ("step", FLAGS), ("run", REAL_FLAGS), ("gen", ())):
        assert [flag for flag in FLAGS if f"  --{flag} " in pages[name]] == list(flags), name
        statuses = re.findall(r"^  (\d+) +(.*)$", pages[name], re.MULTILINE)
        assert [int(status) for status, _ in statuses] == [*range(10), 126, 127], statuses
        for status, means in statuses:
            assert f"\n{status} {means[0].upper()}{means[1:]}." in manual, (status, means)
    assert all(len(line) < 120 for page in pages.values() for line in page.splitlines())


def test_script_help(folder):
    """Help and the version are answered without a program, and nothing else is said; a reader may leave."""
    for words in (["--help"], ["-h"], ["help"], ["step", "--help"], ["--version"]):
        ran = melt(*words, program=folder / "nothing")
        assert ran.status == 0 and ran.out.startswith("melt ") and not ran.told, (words, ran)
        with subprocess.Popen([SCRIPT, *words], stdout=subprocess.PIPE, stderr=subprocess.PIPE) as left:
            left.stdout.close()
            assert not left.stderr.read(), words
        with open("/dev/full", "w") as full:
            ran = subprocess.run([SCRIPT, *words], stdout=full, stderr=subprocess.PIPE, text=True, env={**os.environ, "MELT_TELL": "1"})
        assert (ran.returncode, ran.stderr) == (7, "melt: standard output could not be written to its end\n"), words


def test_script_silent(folder):
    """After status 0 nothing is told, and nothing at all where it is not asked to; the program's words and output go through."""
    program = program_that("echoes", 'printf "%s." "$@"; cat; echo "from the program" >&2; exit 0')
    ran = melt("step", "--heap 16", "", program=program, input="a trace\n")
    assert ran == (0, "step.--heap 16..a trace\n", "from the program\n"), ran
    for status in range(1, 12):
        ran = melt("step", program=program_that("fails", f"exit {status}"), env={"MELT_TELL": None})
        assert ran == (status, "", ""), ran


def test_script_disk_fault(folder):
    """After status 4 it is told what stands at the name of the disk, whether a file can be made, and what room there is."""
    fails = program_that("fails", "exit 4")
    stands = {"not there": "true", "a file of 8 bytes": "printf 12345678 > melt.stale", "a folder": "mkdir melt.stale",
              "a FIFO": "mkfifo melt.stale", "a link to nowhere, not there": "ln -s nowhere melt.stale",
              "a link to /dev/null, a device": "ln -s /dev/null melt.stale"}
    for number, (told, does) in enumerate(stands.items()):
        os.mkdir(str(number))
        subprocess.run(does, shell=True, cwd=str(number), check=True)
        lines = lines_of(melt("step", program=fails, cwd=str(number)))
        assert f"  melt.stale is {told}" in lines and "  the folder takes a new file" in lines, lines
        assert re.fullmatch(r"  (more than 1 GB is|\d+ KB are) left on its file system", lines[-1]), lines
        assert len(os.listdir(str(number))) == (number > 0)
    lines = lines_of(melt("step", program=fails, cwd="/proc"))
    assert re.fullmatch("  the folder takes no new file: (No such file or directory|Permission denied)", lines[-2]), lines
    limited = subprocess.run(["bash", "-c", 'ulimit -f 5; exec "$@"', "bash", SCRIPT, "step"], capture_output=True, text=True,
                             env={**os.environ, "MELT_TELL": "1", "MELT_PROGRAM": str(fails)})
    assert limited.stderr.endswith("melt:   a file may have at most 5 KB, by ulimit -f\n"), limited


def test_script_changed_trace(folder):
    """Of a trace that has changed no line is told, and it is not run again; nor where the second run does not refuse it."""
    path = trace("bad", "new 16 0 0")
    for does, told in (("echo >> bad.trace", "the file has changed"), ("true", "it was not refused when it was read once more")):
        with path.open() as file:
            ran = melt("step", program=program_that("fails", f"cat > /dev/null; echo >> runs; {does}; exit 2"), stdin=file)
        assert ran.status == 2 and told in ran.told and len(lines_of(ran)) == 1, ran
    assert pathlib.Path("runs").read_text() == "\n" * 3
    long = trace("long", "# " + "x" * 100, "new 0 0 0 " + " " * 100 + "0")
    with long.open() as file:
        ran = melt("step", stdin=file)
    assert lines_of(ran)[0] == f"line 6 begins: {('new 0 0 0' + ' ' * 100)[:80]}", ran


def test_script_terminal(folder):
    """That a trace is read from the terminal is told where one is read, and not after words that are refused."""
    for words, is_read in ((["step"], True), (["run", "--heap", "50"], True), (["step", "--heap", "5"], False), (["gen"], False)):
        ours, theirs = pty.openpty()
        program = program_that("stands", "exit 0")
        with subprocess.Popen([SCRIPT, *words], stdin=theirs, stdout=subprocess.DEVNULL, stderr=subprocess.PIPE, text=True,
                              env={**os.environ, "MELT_TELL": "1", "MELT_PROGRAM": str(program)}) as ran:
            assert ("from the terminal" in ran.stderr.read()) == is_read, words
        os.close(ours)
        os.close(theirs)


def shown_on_terminal(words, **given):
    """What a program writes to a terminal by standard error, and its status."""
    ours, theirs = pty.openpty()
    ran = subprocess.Popen(words, stdin=subprocess.DEVNULL, stdout=subprocess.DEVNULL, stderr=theirs, **given)
    os.close(theirs)
    text = b""
    while select.select([ours], [], [], SECONDS)[0]:
        try:
            part = os.read(ours, 1 << 16)
        except OSError:         # nobody writes any more
            part = b""
        if not part:
            break
        text += part
    os.close(ours)
    return ran.wait(), text.decode()
