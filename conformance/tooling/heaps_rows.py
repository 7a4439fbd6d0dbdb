"""Tests of what tools/heaps finds: each number of its rows is compared with what the model counts in the same run."""
import pathlib
import re

from modelling.output import status_of
from tooling.calls import MOVING, program, record
from tooling.replays import PLAIN, counted, generated, heaps, is_done, leave_file, rows_of, trace

COLUMNS = ["heap", "collections", "left", "came_back", "percent", "in_use", "held", "on_disk", "seconds", "end"]
KEEPS = """class Thing:
    def __init__(self, number): self.number = number
things = [Thing(number) for number in range(60)]
for turn in range(200):
    things[turn * turn % 7].number += 1
    things.append(Thing(turn))
"""


def compare(path, rows, *words):
    """Each row is what the model counts. Of a run that is not done, what came back last is missing."""
    for row in rows:
        found = counted(path, ["--heap", row["heap"], *words])
        journal, status = found.report.journal, int(row["end"].split()[0])
        assert status == status_of(found.report), row
        wanted = [len(journal), sum(entry.bodies for entry in journal), max((entry.live for entry in journal), default=0),
                  max((entry.held for entry in journal), default=0), journal[-1].end - 1 if journal else 0]
        assert [int(row[name]) for name in ("collections", "left", "in_use", "held", "on_disk")] == wanted, (row, wanted)
        came_back = int(row["came_back"])
        assert came_back == found.came_back if status == 0 else came_back <= found.came_back <= came_back + 1024, (row, found.came_back)


def test_heaps_came_back(folder):
    """What came back is what the model counts, for all kinds of traces from a number."""
    for kind in ("list", "queue", "table", "tree"):
        path = generated(kind, 60)
        ran = heaps("--csv", path)
        rows = rows_of(ran.out)
        assert ran.status == 0 and list(rows[0]) == COLUMNS and len(rows) > 4, ran
        compare(path, rows)
        assert any(row["end"] == "0" and int(row["came_back"]) for row in rows), rows


def test_heaps_came_back_by_options(folder):
    """So it is with other options, where more moves, also by few forwarding words."""
    path = generated("tree", 80)
    for words in (MOVING, ["--mark=10", "--move=20", "--every=50", "--forward=3"], ["--disk", "200"]):
        rows = rows_of(heaps("--csv", "--from", 350, "--to", 40, path, "--", *words).out)
        compare(path, rows, *words)
        assert any(int(row["came_back"]) for row in rows), rows


def test_heaps_came_back_in_threads(folder):
    """So it is of several threads, which all have a collection added."""
    path = generated("queue", 40, threads=3)
    ran = heaps("--csv", "--from", 1000, "--to", 120, path, "--", *MOVING)
    assert "a collection is added after the last operation of each of 3 threads" in ran.told, ran
    compare(path, rows_of(ran.out), *MOVING)


def test_heaps_run(folder):
    """--run has real threads, and the same rows where there is one."""
    path = generated("table", 60)
    by_step, by_run = (rows_of(heaps("--csv", *words, path).out) for words in ([], ["--run"]))
    assert [{**row, "seconds": 0} for row in by_step] == [{**row, "seconds": 0} for row in by_run]
    ran = heaps("--run", "--heap", 200, generated("list", 40, threads=4))
    assert ran.status == 0 and "by run" in ran.out, ran


def test_heaps_plain_need(folder):
    """In no smaller heap the trace ends done while nothing can move."""
    for kind, size in (("list", 20), ("queue", 30)):
        path = generated(kind, size)
        need = need_in(heaps("--heap", 50, path).out)
        done = [heap for heap in range(16, need + 20) if is_done(path, ["--heap", str(heap), *PLAIN])]
        assert done == list(range(need, need + 20)), (need, done)


def need_in(text):
    return int(re.search(r"^plain need: (\d+) words", text, re.MULTILINE)[1])


def test_heaps_no_plain_need(folder):
    """Where no heap suffices, that is said, and the largest is begun with. A heap of that size wants as many objects."""
    lines = ["new 1 1 0", "repeat 33900", "new 0 62 62", "store 0 0 1", "copy 1 0", "end", "gstore 0 1"]
    ran = heaps("--csv", "--heap", 4194304, trace("large", *lines), "--", "--mark=0", "--move=0")
    assert "plain need: unknown" in ran.told and "of a plain need that is unknown" in ran.told, ran
    assert [row["heap"] for row in rows_of(ran.out)] == ["4194304"], ran.out


def test_heaps_tried(folder):
    """Halves from the plain need to a run that is not done; sixteenths around the bend; the last line tells of it."""
    path = generated("list", 200)
    ran = heaps("--csv", path)
    rows, need = rows_of(ran.out), need_in(ran.told.replace("heaps: ", ""))
    tried = {int(row["heap"]): row for row in rows}
    assert list(tried) == sorted(tried, reverse=True) and max(tried) == need
    halves = [need >> times for times in range(20) if need >> times > min(tried)]
    assert set(halves) <= set(tried) and (min(tried) == 16 or tried[min(tried)]["end"] != "0"), tried
    assert ran.told.splitlines()[-1] == f"heaps: {sentence(rows, need, loads(path))}", ran.told
    bend = next(heap for heap in tried if heap // 2 in tried and not is_little(tried[heap // 2], loads(path)))
    assert {bend - part * bend // 16 for part in range(8)} & set(tried) and len(tried) > 10, (bend, tried)


def loads(path):
    return sum(line.startswith(("load", "gload")) for line in path.read_text().splitlines())


def is_little(row, uses):
    return row["end"] == "0" and 100 * int(row["came_back"]) < uses


def sentence(rows, need, uses):
    """The last line, found from the rows."""
    last = None
    for row in rows:
        if not is_little(row, uses):
            break
        last = int(row["heap"])
    if last is None:
        return "There is no heap among those tried from which on fewer than one use in a hundred comes from the disk."
    part = f"{100 * last / need:.0f} % of the plain need"
    return f"From {last} words on, in every heap tried, fewer than one use in a hundred comes from the disk: {part}."


def test_heaps_from_and_to(folder):
    """--from and --to say which halves are tried, also after a run that is not done; --heap tries one."""
    path = generated("table", 100)
    tried = [int(row["heap"]) for row in rows_of(heaps("--csv", "--from", 300, "--to", 16, path).out)]
    assert {300, 150, 75, 37, 18, 16} <= set(tried), tried
    ran = heaps("--heap", 66, path)
    assert ran.status == 0 and ran.out.splitlines()[-3].split()[0] == "66" and "There is no heap" in ran.out, ran
    assert re.search(r" - .* 5 end out-of-heap \d+ \d+$", ran.out.splitlines()[-3]), ran
    tried = [int(row["heap"]) for row in rows_of(heaps("--csv", "--to", 200, path).out)]
    assert min(tried) == 200 and len(tried) > 2, tried


def test_heaps_uses(folder):
    """Uses are those that the recorder wrote down; or loads, with blocks written out."""
    record(program("keeps.py", KEEPS))
    ran = heaps("--csv", "--heap", 700, "keeps.trace")
    uses = int(pathlib.Path("keeps.expect").read_text().split()[-1])
    row, = rows_of(ran.out)
    assert ran.status == 0 and f"{uses} uses of the program, by keeps.expect" in ran.told, ran
    assert row["percent"] == f"{100 * int(row['came_back']) / uses:.2f}" and int(row["came_back"]) > 0, row
    compare("keeps.trace", [row])
    blocks = trace("blocks", "new 0 1 1", "gstore 0 0", "repeat 3", "gload 1 0", "repeat  4", "load 1 1 0 ", "put 0 0 1", "end", "end")
    told = heaps("--heap", 50, blocks).out
    assert "blocks.trace: 29 operations, by step\n15 load and gload operations" in told, told


def test_heaps_unsettled(folder):
    """What is back without a Stub in the end is told as what can be more, and is never more than what has a Body."""
    from replaying.melt import Lines, Replay
    from replaying.rows import Uses, row_of
    path = trace("back", "new 0 0 1", "gstore 0 0", "drop 0", "collect", "collect", "collect", "gload 0 0")
    words = ["--heap=16", "--mark=0", "--move=0"]
    for unsettled, more, is_little in ((0, 0, True), (1, 1, False), (1024, 1, False)):
        found = counted(path, words, has_collects=False)
        leave_file(path, *words)
        lines = Lines([0], "", found.report.journal)
        row = row_of(Replay(0, 0.0, lines, pathlib.Path("melt.stale")), 16, Uses(100, ""), unsettled)
        assert (row.left, row.came_back, row.more, row.is_little) == (1, 0, more, is_little) and found.came_back == 1, row
        assert row.cells()[3] == "0+"[:1 + more] and row.cells(for_program=True)[3] == "0", row


def test_heaps_full_trace(folder):
    """A trace that is full has no collection added, and that is said."""
    from replaying.trace import MOST_OPERATIONS, Trace
    for more, fits in ((2, True), (1, False)):
        full = trace("full", "new 0 1 1", f"repeat {MOST_OPERATIONS - more}", "drop 0", "end")
        counts = Trace(full.read_bytes())
        counts.count()
        assert counts.operations == MOST_OPERATIONS - more + 1 and (counts.settled() is not None) == fits
        assert not fits or counts.settled() == full.read_bytes().replace(b"done", b"collect\ndone")
    long = Trace(full.read_bytes() + b"#" * (16_777_216 - full.stat().st_size - 7))
    assert long.count() or long.settled() is None
    ran = heaps("--heap", 50, full)
    assert ran.status == 0 and "no collection is added" in ran.out and re.search(r"50 +0 +0 +0 ", ran.out), ran
