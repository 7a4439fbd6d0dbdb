"""Tests of how the script `melt` finds, builds and tries the program, in a small clone with a stand-in for the command rt; and of
tools/install."""
import os
import pathlib
import re
import shutil
import subprocess

from tooling.calls import SECONDS, TOP, Ran
from tooling.replays import program_that, trace
from tooling.script_words import lines_of, melt, shown_on_terminal

# It writes down what it is asked, and makes a program of the last crate that says its words.
RT = """#!/bin/bash
echo "${PWD##*/} $*" >> "$LOG"
case $1 in
    version) echo 'a kit for tests'; exit ;;
    try) cat; exit 3 ;;
esac
[[ -e fails ]] && { echo 'not proved' >&2; exit 1; }
[[ -e slow ]] && sleep 1.2
if [[ $1 == run ]]; then printf '#!/bin/sh\\necho built "$@"\\n' > out/melt_top; chmod +x out/melt_top; fi
"""


class Clone:
    """A clone of three crates, and what the command rt was asked there."""

    def __init__(self, folder):
        self.top, self.log = folder / "clone", folder / "log"
        for crate in ("low", "other", "melt_top"):
            (self.top / "crates" / crate / "src").mkdir(parents=True)
        (self.top / "crates.txt").write_text("melt_top: low clap   # the program\nlow:\nother: low\n")
        shutil.copytree(TOP / "tools", self.top / "tools", ignore=shutil.ignore_patterns("__pycache__"))
        shutil.copytree(TOP / "docs", self.top / "docs", ignore=shutil.ignore_patterns("pictures"))
        shutil.copytree(TOP / "examples", self.top / "examples")
        shutil.copy(TOP / "README.md", self.top)
        shutil.copy(TOP / "melt", self.top)
        self.tools = folder / "bin"
        self.tools.mkdir()
        (self.tools / "rt").write_text(RT)
        (self.tools / "rt").chmod(0o755)
        self.env = {"PATH": f"{self.tools}:{os.environ['PATH']}", "LOG": str(self.log), "MELT_PROGRAM": None}
        self.program = self.top / "crates/melt_top/out/melt_top"

    def melt(self, *words, **given):
        return melt(*words, script=self.top / "melt", env={**self.env, **given.pop("env", {})}, **given)

    def asked(self):
        """What rt was asked since this was called last."""
        lines = self.log.read_text().splitlines() if self.log.exists() else []
        self.log.write_text("")
        return lines

    def age(self):
        """Has all that is there look older than what comes next."""
        for path in self.top.rglob("*"):
            os.utime(path, (1_000_000, 1_000_000), follow_symlinks=False)


def test_script_build(folder):
    """--build builds what the program stands on, lowest first, tells each crate, and says where the program is."""
    clone = Clone(folder)
    clone.age()
    assert clone.melt("--version").out.splitlines()[-1] == "not built"
    ran = clone.melt("--build")
    assert (ran.status, ran.out) == (0, f"{clone.program}\n"), ran
    assert [line.split() for line in lines_of(ran)[-2:]] == ["1 of 2 low 0 s".split(), "2 of 2 melt_top 0 s".split()], ran
    assert clone.asked() == ["low lib", "melt_top run -- step", f"{pathlib.Path.cwd().name} version"]
    ran = clone.melt("--build")
    assert ran == (0, f"{clone.program}\n", "") and not clone.asked(), ran
    assert clone.melt("step", "x") == (0, "built step x\n", "") and not clone.asked()
    assert clone.melt("--version").out.splitlines()[-1] == "built by a kit for tests"
    os.utime(clone.top / "crates.txt")
    assert clone.melt("--version").out.splitlines()[-1] == "built by a kit for tests, from sources that have changed since"
    assert clone.melt("step").out == "built step\n" and len(clone.asked()) == 3


def test_script_build_on_terminal(folder):
    """A terminal sees for how long a crate is being built, over its line."""
    clone = Clone(folder)
    (clone.top / "crates/low/slow").touch()
    env = {**os.environ, **clone.env}
    del env["MELT_PROGRAM"]
    status, shown = shown_on_terminal([clone.top / "melt", "--build"], env=env)
    line = r"\rmelt:  1 of 2  low +"
    assert status == 0 and re.search(rf"{line}0 s{line}1 s(?:{line}2 s)?{line}[12] s\r\n", shown), shown
    assert re.search(r"melt_top +\d s\r\n$", shown) and "--try" in shown, shown


def test_script_build_fails(folder):
    """A build that fails leaves its log and no program; where rt is missing, that is told."""
    clone = Clone(folder)
    (clone.top / "crates/low/fails").touch()
    ran = clone.melt("step")
    out = clone.program.parent
    assert ran.status == 126 and not ran.out and lines_of(ran)[-1] == f"the program could not be built; {out}/build.log says why", ran
    assert os.listdir(out) == ["build.log"] and (out / "build.log").read_text() == "not proved\n"
    for words in (["step"], ["--build"], ["--try", "step"]):
        ran = clone.melt(*words, env={"PATH": "/usr/bin:/bin"})
        assert ran.status == 127 and not ran.out and "the command rt" in ran.told, ran


def test_script_program(folder):
    """MELT_PROGRAM names the program that is run, and nothing is built. One that cannot be run is told."""
    clone = Clone(folder)
    program_that("here", 'echo "here $*"')
    for name in ("here", "./here", folder / "here"):
        assert clone.melt("step", "x", env={"MELT_PROGRAM": str(name)}) == (0, "here step x\n", "")
    assert clone.melt("--build", env={"MELT_PROGRAM": "here"}) == (0, f"{folder}/here\n", "")
    for name in ("nowhere", "no/where", ".", clone.top / "melt", clone.top / "crates.txt"):
        ran = clone.melt("step", env={"MELT_PROGRAM": str(name)})
        assert ran.status == 126 and not ran.out and "is no program that could be run" in ran.told, ran
    assert not clone.asked()


def test_script_try(folder):
    """--try runs the sources by these words and this input, in the crate's folder, and says that they are not proved."""
    clone = Clone(folder)
    ran = clone.melt("--try", "step", "--heap", "16", input="a trace\n")
    assert (ran.status, ran.out) == (3, "a trace\n") and "unproved" in ran.told, ran
    assert clone.asked() == ["melt_top try -- step --heap 16"] and not clone.program.parent.exists()


def install(clone, *words, **given):
    env = {**os.environ, **clone.env, **given}
    ran = subprocess.run([clone.top / "tools/install", *map(str, words)], capture_output=True, text=True, timeout=SECONDS,
                         env={name: value for name, value in env.items() if value is not None})
    return Ran(ran.returncode, ran.stdout, ran.stderr)


def listed(folder):
    return sorted(str(path.relative_to(folder)) for path in folder.glob("*/*"))


def test_install(folder):
    """What is put there runs, builds nothing and finds its program; it is replaced with --force alone."""
    clone, prefix = Clone(folder), folder / "to here"
    clone.age()
    ran = install(clone, prefix)
    assert ran.status == 0 and ran.out.startswith(f"{prefix}/bin/melt is there."), ran
    names = ["bin/melt", "bin/melt-heaps", "bin/melt-record", "bin/melt-who", "lib/melt", "share/man"]
    assert listed(prefix) == names and (prefix / "share/man/man1/melt.1").is_file()
    shutil.rmtree(clone.top / "crates")
    there = prefix / "bin/melt"
    given = {"script": there, "env": {**clone.env, "PATH": "/usr/bin:/bin"}}
    clone.asked()
    assert melt("step", "x", **given) == (0, "built step x\n", "")
    assert melt("--build", **given) == (0, f"{prefix}/lib/melt/melt_top\n", "")
    assert melt("--version", **given).out.splitlines()[-1] == "built by a kit for tests"
    assert melt("--help", **given).status == 0 and f"In {prefix}/lib/melt:" in melt("--help", **given).out
    assert melt("--try", "step", **given).status == 126 and not clone.asked()
    for tool in ("record", "heaps", "who"):
        ran = subprocess.run([prefix / f"bin/melt-{tool}", "--help"], capture_output=True, text=True)
        assert ran.returncode == 0 and ran.stdout.startswith(f"tools/{tool}"), ran
    ran = install(clone, prefix, MELT_PROGRAM=str(program_that("other", 'echo "other $*"')))
    assert ran.status == 3 and "--force replaces it" in ran.told and melt("step", **given).out == "built step\n", ran
    ran = install(clone, "--force", prefix, MELT_PROGRAM=str(folder / "other"))
    assert ran.status == 0 and melt("step", **given).out == "other step\n" and listed(prefix) == names, ran


def test_install_runs(folder):
    """The tools run the program that was put there with them."""
    clone, prefix = Clone(folder), folder / "there"
    assert install(clone, prefix, MELT_PROGRAM=str(program_that("stands", 'exec "$MELT" "$@"'))).status == 0
    env = {name: value for name, value in os.environ.items() if name != "MELT_PROGRAM"}
    path = trace("small", "new 0 1 1", "gstore 0 0", "gload 1 0")
    ran = subprocess.run([prefix / "bin/melt-heaps", "--csv", "--heap", "16", path], capture_output=True, text=True, env=env)
    assert ran.returncode == 0 and ran.stdout.splitlines()[1].startswith("16,1,0,0,"), ran


def test_install_fails(folder):
    """Bad words are told with status 1, and what cannot be put there with status 3; nothing is left."""
    clone = Clone(folder)
    assert install(clone, "--help").out.startswith("tools/install [--force] PREFIX\n\nPuts Melt")
    for words in ([], ["--other", "there"], ["one", "two"], ["--force"]):
        ran = install(clone, *words)
        assert ran.status == 1 and not ran.out and "--help tells the words" in ran.told, ran
    pathlib.Path("a file").touch()
    assert install(clone, "a file/there").status == 3 and not clone.asked()
    (clone.top / "docs/melt.1").unlink()
    shutil.rmtree(clone.top / "examples")
    ran = install(clone, "there")
    assert ran.status == 3 and not listed(folder / "there")[1:] and not os.path.exists("there/lib/melt"), ran
