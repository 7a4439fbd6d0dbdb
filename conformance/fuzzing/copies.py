"""Programs of changed crates, many of them in one build.

To build the program takes a minute and more, most of it for what no wrong program changes. So a changed crate, and each that
stands on it, is copied under a name of its own beside the true one: `melt_rule` is `melt_rule_w3` for the third. The `main` of such
a build takes the number first, and then the words. Tests of changed crates stand in one crate likewise, each in a module `w3`.
"""
import os
import pathlib
import re
import shutil
import subprocess
import tempfile
import time
from typing import NamedTuple

HERE = pathlib.Path(__file__).resolve().parent.parent
TOP = HERE.parent
RUN = "melt_pool"                   # the crate by which the program runs threads: no crate above it is copied whole
STEP = re.compile(r"(\.(?:load|store|fetch_add|fetch_and|compare_exchange)::<[^()]*>\(\s*)seat\b")
HOLD = 20_000_000                   # how often the built program yields that is to be found while it runs
TESTED = re.compile(r"^test (?:(w\d+)::)?(\S+) \.\.\. (\S+)", re.M)

MAIN = """//! Many programs in one, of which the first word names one by its number.
#![tactic(auto)]

mod command;
mod options;
mod status;
mod text;
{mods}

use melt_io::{{FileDisk, OpenGate, StdSink, StdSource}};
use melt_safepoint::keep_memory;
use status::Status;
use std::alloc::{{AllocError, Global}};
use std::process::ExitCode;
use std::rt::Env;
use std::{{env, io}};

fn words<R: Env + AllocGlobal>(rt: &R) -> Result<Vec<String>, AllocError> {{
    match env::args(rt) {{
        Ok(all) => all.skip(1).collect(rt.alloc()),
        Err(error) if error.kind() == io::ErrorKind::OutOfMemory => Err(AllocError),
        Err(_) => Ok(Vec::new(rt.alloc())),
    }}
}}

fn main(rt: HostRuntime) -> ExitCode {{
    keep_memory(rt.alloc());
    let mut input = StdSource::new(rt.stdin());
    let mut out = StdSink::new(rt.stdout());
    let mut disk = FileDisk::new(rt.alloc(), rt, 0);
    let Ok(all) = words(&rt) else {{
        return ExitCode::from(Status::NoMemory.code());
    }};
    let Some((number, words)) = all.as_slice().split_first() else {{
        return ExitCode::from(Status::Usage.code());
    }};
    let status = match number.as_str() {{
{arms}
        _ => {{
            for _ in 0..{hold} {{
                std::thread::yield_now();
            }}
            Status::Usage
        }}
    }};
    ExitCode::from(status.code())
}}
"""
ARM = """        "{number}" => top_w{number}::melt(
            &rt, rt.alloc(), words, &mut input, &mut out, &mut disk, &OpenGate,
        ),"""
SHAKEN = """//! Lets others run before a step.
use crate::words::Seated;
use std::sync::atomic::{AtomicU64, Ordering};
use std::thread;

/// Yields, and then holds the step up for a while.
pub(crate) fn shaken(seat: &mut Seated, spins: u32) -> &mut Seated {
    thread::yield_now();
    let word = AtomicU64::new(0);
    for _ in 0..spins {
        word.fetch_add(1, Ordering::SeqCst);
    }
    seat
}
"""


class NoBuild(Exception):
    """What the build said."""


class Build(NamedTuple):
    """A copy of the repository's crates, in a folder."""
    folder: pathlib.Path
    deps: dict

    def crate(self, name):
        return self.folder / "crates" / name


def crates_of(text):
    """What each crate stands on."""
    lines = (line.split("#")[0].partition(":") for line in text.splitlines())
    return {name.strip(): rest.split() for name, _, rest in lines if name.strip()}


def new_build(folder):
    """A copy of all crates, as they are."""
    folder = pathlib.Path(folder)
    for name in ["crates.txt", "HANDLES"]:
        shutil.copy(TOP / name, folder / name)
    shutil.copytree(TOP / "crates", folder / "crates", ignore=shutil.ignore_patterns("out", "must-fail", "proofs"))
    for crate in (folder / "crates").iterdir():
        (crate / "proofs").mkdir(exist_ok=True)
    return Build(folder, crates_of((TOP / "crates.txt").read_text()))


# ---------------------------------------------------------------- a shaken crate


def shaken(rng):
    """The changed files of a crate whose threads yield before each step on the table, and spin before some. The steps are those
    of `texts`, where a wrong program changed them."""
    def change(texts):
        texts = dict(texts)
        for path in sorted((TOP / "crates/melt_rule/src").glob("*.rt")):
            name = f"melt_rule/src/{path.name}"
            text = texts.get(name, path.read_text())
            found, steps = STEP.subn(lambda step: f"{step[1]}crate::shake::shaken(seat, {rng.choice([0, 0, 0, 16, 100, 400])})", text)
            if steps:
                texts[name] = found
        lib = "melt_rule/src/lib.rt"
        texts[lib] = texts.get(lib, (TOP / "crates" / lib).read_text()).replace("\nmod plays;", "\nmod plays;\nmod shake;")
        texts["melt_rule/src/shake.rt"] = SHAKEN
        return texts
    return change


# ---------------------------------------------------------------- more crates in a copy


def changed_with(deps, texts):
    """The crates of these files, and those that stand on them and that a run stands on, lowest first."""
    changed = {file.split("/")[0] for file in texts}
    below = [name for name in deps if name == RUN or name in all_below(deps, RUN)]
    while True:
        more = {name for name in below if name not in changed and changed & set(deps[name])}
        if not more:
            return [name for name in deps if name in changed]
        changed |= more


def all_below(deps, name):
    found, open_ = set(), [name]
    while open_:
        for below in deps.get(open_.pop(), []):
            if below not in found:
                found.add(below)
                open_.append(below)
    return found


def renamed(text, names, number):
    """The text with other names of these crates."""
    return re.sub(rf"\b({'|'.join(names)})\b", rf"\1_w{number}", text)


def add_program(build, number, texts):
    """Adds the crates of a program with these changed files, under names with its number."""
    names = changed_with(build.deps, texts)
    lines = []
    for name in names:
        target = build.crate(f"{name}_w{number}")
        shutil.copytree(build.crate(name), target)
        for file, text in texts.items():
            if file.startswith(f"{name}/"):
                (target / file.partition("/")[2]).write_text(text)
        for path in [*target.rglob("*.rt"), *target.rglob("*.antt")]:
            path.write_text(renamed(path.read_text(), names, number))
        lines.append(f"{name}_w{number}: {renamed(' '.join(build.deps[name]), names, number)}\n")
    with open(build.folder / "crates.txt", "a") as file:
        file.writelines(lines)
    return names


def stand_on(build, crate, names_by_number):
    """Lets a crate stand on what was added."""
    more = [f"{name}_w{number}" for number, names in names_by_number.items() for name in names]
    path = build.folder / "crates.txt"
    line = f"{crate}: {' '.join([*build.deps[crate], *more])}"
    path.write_text(re.sub(rf"(?m)^{crate}:.*$", line, path.read_text()))


# ---------------------------------------------------------------- the program


def program_of(build, names_by_number, target):
    """Builds one program of all that were added, and puts it at the target. `target NUMBER WORD..` is the program of that number."""
    crate = build.crate("melt_top")
    true_top = (crate / "src/top.rt").read_text()
    for number, names in names_by_number.items():
        (crate / f"src/top_w{number}.rt").write_text(renamed(true_top, names or ["no_crate"], number))
    mods = "\n".join(f"mod top_w{number};" for number in names_by_number)
    arms = "\n".join(ARM.format(number=number) for number in names_by_number)
    (crate / "src/main.rt").write_text(MAIN.format(mods=mods, arms=arms, hold=HOLD))
    for path in ("top.rt", "tests.rt"):
        (crate / "src" / path).unlink()
    shutil.rmtree(crate / "src/tests")
    stand_on(build, "melt_top", names_by_number)
    cases = build.folder / "cases"
    cases.mkdir()
    (cases / "hold").write_text("")
    (cases / "hold.args").write_text("hold\n")
    with tempfile.TemporaryDirectory(dir=build.folder) as scratch, open(build.folder / "said", "w+") as said:
        # What `rt try` built is kept nowhere. So it is copied while its first run goes on, which does nothing for a while.
        tried = subprocess.Popen(["rt", "try", "--cases", str(cases)], cwd=crate, stdin=subprocess.DEVNULL, stdout=said, stderr=said,
                                 env={**os.environ, "TMPDIR": scratch})
        built = None
        while tried.poll() is None and not built:
            built = next((path for path in pathlib.Path(scratch).rglob("program") if (path.parent / "stdout").exists()), None)
            if built:
                shutil.copy2(built, target)
            time.sleep(0.1)
        tried.wait()
        if not built:
            said.seek(0)
            raise NoBuild(said.read()[-4000:])


# ---------------------------------------------------------------- the tests


def with_tests(build, crate, names_by_number):
    """Lets a crate of tests have those of each number, in a module of its own."""
    source, true_source = build.crate(crate) / "src", TOP / "crates" / crate / "src"
    files = {path.relative_to(true_source): path.read_text() for path in true_source.rglob("*.rt")}
    shutil.rmtree(source)
    for number, names in names_by_number.items():
        for path, text in files.items():
            lib = str(path) == "lib.rt"
            target = source / (f"w{number}.rt" if lib else f"w{number}/{path}")
            target.parent.mkdir(parents=True, exist_ok=True)
            if lib:
                text = "\n".join(line for line in text.splitlines() if not line.startswith(("//!", "#!["))) + "\n"
            text = re.sub(r"\bcrate::", f"crate::w{number}::", text)
            target.write_text(renamed(text, names, number) if names else text)
    mods = "".join(f"pub mod w{number};\n" for number in names_by_number)
    (source / "lib.rt").write_text(f"//! The tests over each program.\n#![tactic(auto)]\n\n{mods}")
    stand_on(build, crate, names_by_number)


def tests_of(build, crate, seconds):
    """Runs the tests of a crate: how each ended, by its number and its name."""
    ran = subprocess.run(["rt", "try", "--test", "--seconds", str(seconds)], cwd=build.crate(crate), stdin=subprocess.DEVNULL,
                         stdout=subprocess.PIPE, stderr=subprocess.STDOUT)
    text = ran.stdout.decode("utf-8", "replace")
    found = {(test[1], test[2]): test[3] for test in TESTED.finditer(text)}
    if not found:
        raise NoBuild(text[-4000:])
    return found, text
