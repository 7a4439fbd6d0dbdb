"""Tests of the words of tools/heaps, its statuses, its picture, and of runs that fail."""
import os
import pathlib
import resource
import shutil
import signal
import subprocess
import sys
import time

from tooling.replays import HEAPS, MELT, generated, heaps, loaded, program_that, rows_of, told_by, trace

DRAWS = "#!/bin/sh\n/bin/cat\n"    # stands for gnuplot, and draws what it is told


def test_heaps_help(folder):
    """--help is answered on standard output, and a reader may leave."""
    ran = heaps("--help")
    assert ran.status == 0 and ran.out.startswith("tools/heaps") and not ran.told, ran
    path = generated("list", 30)
    for words in (["--help"], [path], ["--csv", path]):
        with open("told", "w+") as told:
            left = subprocess.Popen([HEAPS, *words], stdout=subprocess.PIPE, stderr=told, env={**os.environ, "MELT_PROGRAM": str(MELT)})
            left.stdout.close()
            assert left.wait() == 0
            told.seek(0)
            assert all(word not in told.read() for word in ("Traceback", "Broken")), words


def test_heaps_bad_words(folder):
    """Bad words are told with status 1, and nothing is run."""
    path, marks = str(generated("list", 5)), program_that("marks", "touch ran")
    for words in ([], ["nowhere.trace"], ["."], ["--heap", "15", path], ["--heap", "64k", path], ["--heap", "4194305", path], ["--to"],
                  ["--from", "-1", path], ["--other", path], [path, path], ["--heap", "50", "--from", "60", path],
                  ["--from", "50", "--to", "60", path], [path, "--", "--heap", "50"], [path, "--", "--quiet"], [path, "--", "--log"],
                  [path, "--", "--every", "5", "--every", "6"], [path, "--", "x"], ["--", path]):
        status, told = told_by(loaded(HEAPS).words_of, words)
        assert status == 1 and told.endswith("--help tells the words"), (words, told)
    for words in ([], ["--heap", "15", path]):
        ran = heaps(*words, melt=marks)
        assert ran.status == 1 and ran.told.startswith("heaps: ") and not ran.out, (words, ran)
    assert not os.path.exists("ran")
    for words in (["--every", "0"], ["--mark=90", "--move=80"]):
        ran = heaps(path, "--", *words)
        assert ran.status == 1 and "melt refuses these options" in ran.told and not ran.out, (words, ran)


def test_heaps_bad_inputs(folder):
    """A trace that melt refuses is refused, with its line; and so is a count of uses that is not of this trace."""
    ran = heaps(trace("bad", "new 0 1 1", "new 16 0 0"))
    assert ran.status == 2 and "error trace 6 9" in ran.told and not ran.out, ran
    path = generated("list", 5)
    for text, why in (("", "five lines"), ("thread 0\nreplies 1\nsum 0\nend done\nuses 1\n", "another trace")):
        pathlib.Path("list.expect").write_text(text)
        ran = heaps(path)
        assert ran.status == 2 and why in ran.told and not ran.out, ran


def test_heaps_words_of_script(folder):
    """What the script says of a refused trace is told, where the script takes this program."""
    from replaying.melt import Melt
    script = pathlib.Path("script")
    script.write_text('#!/bin/sh\nread line; echo "melt: $MELT_PROGRAM $MELT_TELL $1 $line" >&2\n')
    script.chmod(0o755)
    os.environ["MELT_PROGRAM"], before = str(MELT), os.environ.get("MELT_PROGRAM")
    try:
        assert Melt("run").told_by_script(b"no trace\n", script.absolute()) == [f"{MELT} 1 run no trace"]
        script.write_text("#!/bin/sh\ntouch built\n")
        assert "docs/TRACES.md" in Melt("run").told_by_script(b"no trace\n", script.absolute())[0]
    finally:
        os.environ.pop("MELT_PROGRAM")
        os.environ.update({"MELT_PROGRAM": before} if before else {})
    assert not os.path.exists("built")


def test_heaps_no_program(folder):
    """Where there is no program, or none that can be run, that is told."""
    path = generated("list", 5)
    pathlib.Path("empty").touch(0o755)
    pathlib.Path("binary").write_bytes(b"\x7fELF")
    os.chmod("binary", 0o755)
    for program in ("nowhere", ".", "empty", "binary"):
        ran = heaps(path, melt=program)
        assert ran.status == 3 and ran.told and not ran.out, (program, ran)


FAILS = {                      # by the heap: what a run does, and how its row says so
    640: ("kill -9 $$", "killed by SIGKILL"), 320: ("exit 0", "0 and its lines are not whole"),
    160: ('"$MELT" "$@" | head -c -3', "0 and its lines are not whole"), 80: ("exit 8", "8 and its lines are not whole"),
    40: ('"$MELT" "$@"; rm melt.stale', "0 and a bad melt.stale, word 1"), 20: ('"$MELT" "$@"; exit 5', "5 and its lines are not whole"),
    16: ('ulimit -f 0; trap "" XFSZ; "$MELT" "$@"', "4 end halted"),
}


def test_heaps_runs_that_fail(folder):
    """A run that is killed, prints nothing or half, or leaves no file is told in its row, with status 3; the others are as ever."""
    path, cases = generated("list", 100), "".join(f"4,{heap}) {does}; exit;;" for heap, (does, _) in FAILS.items())
    melt = program_that("fails", f'case $#,$heap in {cases} esac; exec "$MELT" "$@"')
    ran = heaps("--csv", "--from", 1280, "--to", 16, path, melt=melt)
    rows = {int(row["heap"]): row for row in rows_of(ran.out)}
    assert ran.status == 3 and all(row["end"] == "0" and row["left"] == "0" for heap, row in rows.items() if heap not in FAILS), ran
    for heap, (_, told) in FAILS.items():
        assert rows[heap]["end"].startswith(told) and rows[heap]["left"] == "-", (heap, ran)
        assert f"the run in a heap of {heap} words failed: {told}" in ran.told, (heap, ran)


def test_heaps_bad_file(folder):
    """So is a file that is no disk of this run, also where it is longer or shorter than the table has it."""
    for does, told in (("truncate -s 8 melt.stale; truncate -s 8000 melt.stale", "word 1: "), ("truncate -s -8 melt.stale", "word 76: "),
                       ("truncate -s +1 melt.stale", "word 81: ")):
        melt = program_that("fails", f'"$MELT" "$@"; status=$?; [[ $# == 4 && -e melt.stale ]] && {does}; exit $status')
        ran = heaps("--csv", "--heap", 90, generated("list", 20), melt=melt)
        assert ran.status == 3 and rows_of(ran.out)[0]["end"].startswith(f"0 and a bad melt.stale, {told}"), (does, ran)


def test_heaps_wrong_sum(folder):
    """A sum that is not the one that was foretold is told."""
    path = trace("sum", "new 0 0 1", "put 0 0 7", "get 0 0")
    for total, status in ((7, 0), (8, 3)):
        pathlib.Path("sum.expect").write_text(f"thread 0\nreplies 3\nsum {total}\nend done\nuses 1\n")
        ran = heaps("--heap", 50, path)
        assert ran.status == status and ("a sum of 7 in the place of 8" in ran.told) == bool(status), ran


def test_heaps_plain_need_fails(folder):
    """A run that fails while the plain need is sought ends the tool."""
    ran = heaps(generated("list", 5), melt=program_that("fails", 'if ((heap < 100)); then kill -9 $$; fi; exec "$MELT" "$@"'))
    assert ran.status == 3 and "words failed: killed by SIGKILL" in ran.told and not ran.out, ran


def test_heaps_signals(folder):
    """Ctrl-C and SIGTERM end it and what it runs. The rows that there are are written, and no folder is left."""
    path = generated("list", 100)
    os.mkdir("folders")
    waits = program_that("waits", f'if [[ $heap == 200 ]]; then echo $$ > {folder}/waits.pid; exec sleep 60; fi; exec "$MELT" "$@"')
    env = {**os.environ, "MELT_PROGRAM": str(waits), "TMPDIR": str(folder / "folders")}
    for number in (signal.SIGINT, signal.SIGTERM):
        # (a shell that is no terminal's lets what it starts in the background ignore Ctrl-C, and so this test too)
        ran = subprocess.Popen([HEAPS, "--csv", "--from", "400", "--to", "200", path], stdout=subprocess.PIPE, stderr=subprocess.PIPE,
                               text=True, env=env, preexec_fn=lambda: signal.signal(signal.SIGINT, signal.SIG_DFL))
        while not (os.path.exists("waits.pid") and pathlib.Path("waits.pid").read_text()):
            time.sleep(0.02)
        ran.send_signal(number)
        out, told = ran.communicate(timeout=60)
        assert ran.returncode == 3 and "it was interrupted" in told and "Traceback" not in told, told
        assert [row["heap"] for row in rows_of(out)] == ["400"] and not os.listdir("folders"), out
        assert not os.path.exists(f"/proc/{pathlib.Path('waits.pid').read_text().strip()}"), "what it runs goes on"
        os.remove("waits.pid")


def with_gnuplot(text):
    """An environment in which this program is gnuplot."""
    path = pathlib.Path("bin/gnuplot")
    path.parent.mkdir(exist_ok=True)
    path.write_text(text)
    path.chmod(0o755)
    return {"PATH": f"{path.parent.absolute()}:{os.environ['PATH']}"}


def test_heaps_picture(folder):
    """A picture has a point for each row, and replaces no file without --force."""
    path, env = generated("list", 40), with_gnuplot(DRAWS)
    ran = heaps("--csv", "--picture", "one.svg", path, env=env)
    drawn = pathlib.Path("one.svg").read_text()
    points = {f"{row['heap']} {row['came_back']}" for row in rows_of(ran.out)}
    assert ran.status == 0 and points <= set(drawn.splitlines()) and "plain need" in drawn, (ran, drawn)
    ran = heaps("--picture", "one.svg", path, env=env, melt=program_that("marks", "touch ran"))
    assert ran.status == 3 and "--force" in ran.told and not os.path.exists("ran"), ran
    assert heaps("--picture", "one.svg", "--force", "--heap", 60, path, env=env).status == 0
    assert len(pathlib.Path("one.svg").read_text()) < len(drawn)
    if shutil.which("gnuplot"):
        assert heaps("--picture", "two.svg", path).status == 0
        assert "<svg" in pathlib.Path("two.svg").read_text()


def test_heaps_no_picture(folder):
    """Where no picture can be drawn or written, no file is there, whole or half."""
    path = generated("list", 40)
    os.mkdir("nothing")
    alone = subprocess.run([sys.executable, "-B", HEAPS, "--picture", "a.svg", path], capture_output=True, text=True,
                           env={"PATH": str(folder / "nothing"), "MELT_PROGRAM": str(MELT)})
    assert alone.returncode == 3 and "gnuplot" in alone.stderr and not alone.stdout, alone
    assert heaps("--picture", "nowhere/a.svg", path, env=with_gnuplot(DRAWS)).status == 3
    ran = heaps("--picture", "a.svg", path, env=with_gnuplot("#!/bin/sh\nexit 1\n"))
    assert ran.status == 3 and "gnuplot drew nothing" in ran.told, ran
    ran = heaps("--picture", "a.svg", "--heap", 1000, path, env=with_gnuplot(DRAWS),
                preexec_fn=lambda: resource.setrlimit(resource.RLIMIT_FSIZE, (100, 100)))
    assert ran.status == 3 and ran.told, ran
    assert not [name for name in os.listdir() if name.startswith("a.svg")], os.listdir()


def test_heaps_progress(folder):
    """On a terminal there is a line that tells which run it is."""
    if not shutil.which("script"):
        print("test_heaps_progress: there is no command `script`, so no terminal")
        return
    path = generated("list", 10)
    ran = subprocess.run(["script", "-qec", f"{HEAPS} {path}", "/dev/null"], capture_output=True,
                         env={**os.environ, "MELT_PROGRAM": str(MELT)})
    assert ran.stdout.count(b"\rheaps: run ") > 10 and ran.returncode == 0, ran
