"""Wrong programs, which the fuzzer is to find."""
import multiprocessing
import os
import pathlib
import shutil
import subprocess
import tempfile
import time

from fuzzing.calls import call_of
from modelling.disk import WordsInMemory
from modelling.program import answer

HERE = pathlib.Path(__file__).resolve().parent.parent
TOP = HERE.parent
ROUNDS = (30, 150, 600)        # after so many traces it is seen whether a wrong program was found; each round builds anew
LARGEST_CASE = 1_000_000  # bytes of a trace that a wrong program is run on

# `rt try` tells the output of a program and its status, and throws its folder away. So each is built with a `main` that writes
# its file after its output, if there is one.
MAIN = "melt_top/src/main.rt"
END_OF_MAIN = "    ExitCode::from(status.code())\n"
SHOWS_FILE = """    if let Ok(stale) = std::fs::read(&rt, "melt.stale") {
        let _shown = std::io::Write::write_all(&mut rt.stdout(), b"melt.stale\\n");
        let _shown = std::io::Write::write_all(&mut rt.stdout(), &stale);
    }
"""


def read_body(path):
    """A wrong program: what it does, why no trace shows it (or ""), and its changes (file, old text, new text)."""
    found, changes = {"unseen": ""}, []
    for line in path.read_text().splitlines():
        key, _, text = line.partition(": ")
        found[key] = text
        if key == "new":
            changes.append((found["file"], found["old"], text))
    return found["about"], found["unseen"], changes


def patched(changes):
    """The changed texts of files by their names, and what is wrong with the patch, or None."""
    texts = {}
    for file, old, new in changes:
        target = TOP / "crates" / file
        text = texts[file] if file in texts else target.read_text() if target.exists() else ""
        if text.count(old) != 1:
            return texts, f"{old.strip()!r} stands {text.count(old)} times in {file}"
        texts[file] = text.replace(old, new)
    return texts, None


def copy_crates(texts, folder):
    """Copies crates/ into a folder, with these texts in the place of those of some files."""
    for name in ["crates.txt", "HANDLES"]:
        shutil.copy(TOP / name, folder / name)
    shutil.copytree(TOP / "crates", folder / "crates", ignore=shutil.ignore_patterns("out", "must-fail"))
    for file, text in texts.items():
        (folder / "crates" / file).write_text(text)
    main = folder / "crates" / MAIN
    main.write_text(main.read_text().replace(END_OF_MAIN, SHOWS_FILE + END_OF_MAIN))


def write_cases(folder, given, numbers):
    """Writes traces as `rt try --cases` wants them; answers the status that each has."""
    wanted = {}
    for number in numbers:
        words, data = call_of(given.seed, number, given.kind)
        if len(data) > LARGEST_CASE or any(not word or "\n" in word for word in words):
            continue
        disk = WordsInMemory()
        status, output = answer(words, lambda: data, disk)
        name = f"t{number:05}"
        (folder / name).write_bytes(data)
        (folder / f"{name}.args").write_text("".join(word + "\n" for word in words))
        (folder / f"{name}.stdout").write_bytes(output + shown(disk.content()))
        wanted[name] = status
    return wanted


def shown(stale):
    """What is written of the file after the output."""
    return b"" if stale is None else b"melt.stale\n" + stale


def verdicts(text):
    """What `rt try --cases` said of each case, by its name: fields with their values."""
    found = {}
    for line in text.splitlines():
        fields = dict(part.split("=", 1) for part in line.split() if "=" in part)
        if "case" in fields:
            found[os.path.basename(fields["case"])] = fields
    return found


def shows(wanted, fields):
    """Whether a run differs from the model: another end, status, output or file."""
    return fields.get("run") != "ended" or fields.get("status") != str(wanted) or fields.get("output") != "expected"


def try_body(path, given):
    """Tries one wrong program: a word for what came of it, and a line about it."""
    about, unseen, changes = read_body(path)
    texts, wrong = patched(changes)
    if wrong:
        return "no patch", f"no longer applies: {wrong}"
    if given.patches:
        return "apply", "applies"
    begun = time.monotonic()
    with tempfile.TemporaryDirectory() as top:
        folder = pathlib.Path(top)
        copy_crates(texts, folder)
        for first, last in zip((0, *ROUNDS), (*ROUNDS, given.count)):
            numbers = range(first, min(last, given.count))
            if not numbers:
                break
            cases = folder / f"cases{first}"
            cases.mkdir()
            wanted = write_cases(cases, given, numbers)
            ran = subprocess.run(["rt", "try", "--cases", str(cases)], cwd=folder / "crates/melt_top", stdin=subprocess.DEVNULL,
                                 stdout=subprocess.PIPE, stderr=subprocess.STDOUT)
            text = ran.stdout.decode("utf-8", "replace")
            found = verdicts(text)
            if not found:
                return "no build", f"does not build: {' '.join(text.split())[:500]}"
            shown = [name for name, status in wanted.items() if name in found and shows(status, found[name])]
            if shown:
                return "found", (f"found by trace {int(shown[0][1:])}, {len(shown)} of the {len(wanted)} from {first} on "
                                 f"({time.monotonic() - begun:.0f} s)")
            if len(found) < len(wanted):
                return "no build", f"rt try answered for {len(found)} of {len(wanted)} traces"
    return ("unseen", f"not found, as is known: {unseen}") if unseen else ("not found", f"NOT FOUND in {given.count} traces: {about}")


def try_job(job):
    path, given = job
    return path.stem, try_body(path, given)


def try_bodies(names, given):
    """Tries the wrong programs; whether one was not found or could not be tried."""
    names = names or sorted(path.stem for path in (HERE / "bodies").glob("*.body"))
    paths = [HERE / "bodies" / f"{name}.body" for name in names]
    counts = {}
    with multiprocessing.Pool(given.jobs) as pool:
        for name, (word, text) in pool.imap(try_job, [(path, given) for path in paths]):
            counts[word] = counts.get(word, 0) + 1
            print(f"{name}: {text}", flush=True)
    print(f"{len(paths)} wrong programs: " + ", ".join(f"{count} {word}" for word, count in sorted(counts.items())))
    return not paths or any(word in counts for word in ("not found", "no patch", "no build"))
