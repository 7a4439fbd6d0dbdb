"""Tests of tools/who, on files that are written here word by word, and on what the program leaves."""
import os
import pathlib
import random
import re
import struct
import subprocess
from collections import Counter

from tooling.calls import MOVING, program, record, rows
from tooling.heaps_rows import KEEPS
from tooling.replays import WHO, counted, heaps, leave_file, loaded, program_that, rows_of, told_by, trace, who

# Three sessions and a dictionary of two cells of one place each, and a session of another place.
KINDS = """kinds 1
program shop.py
window 10
first 1
last 90
operations 30
object\t1\t1\t4\t10\t20\t-\tSession\tshop.py:4\tshop.all > Session
object\t2\t1\t4\t40\t80\t-\tSession\tshop.py:4\tshop.all > dict > Session
object\t3\t1\t4\t40\t-\t60\tSession\tshop.py:4\t-
object\t4\t2\t2\t10\t90\t-\tdict\tshop.py:9\tshop.all > dict
cell\t5\t0\t10\t30\t4\t-
object\t6\t0\t1\t90\t-\t-\tSession\tshop.py:8\tshop.last > Session
"""
BODY, STUB = 1, 2


def record_of(kind, home, second, slots, numbers):
    return [kind + len(slots) * 2**8 + len(numbers) * 2**16 + home * 2**32, second, *slots, *numbers]


# The file has a Body of object 1, which leads to the next record, a Stub; a Body of the further cell; and a Stub that is cut.
WORDS = [0, *record_of(BODY, 1, 0, [8 * 4 + 3], [1, 0, 0, 0]), *record_of(STUB, 8, 5, [77], [1, 1, 1, 1]),
         *record_of(BODY, 15, 0, [], [5] * 10), *record_of(STUB, 27, 2**30 - 1, [], [0])][:-1]
TABLE = """kind,place,made,words,objects_1,words_1,objects_2,words_2,objects_3,words_3,last_used,on_disk,words_on_disk,held_by
dict,shop.py:9,1,18,1,18,1,18,1,18,90,0,12,shop.all > dict
Session,shop.py:4,3,21,1,7,2,14,2,14,80,1,7,shop.all > Session
Session,shop.py:8,1,3,0,0,0,0,1,3,-,0,0,shop.last > Session
"""


def written(words, kinds=KINDS):
    pathlib.Path("shop.kinds").write_text(kinds)
    pathlib.Path("melt.stale").write_bytes(struct.pack(f"<{len(words)}Q", *words))


def test_who_help(folder):
    """--help is answered on standard output, and a reader may leave."""
    ran = who("--help")
    assert ran.status == 0 and ran.out.startswith("tools/who") and not ran.told, ran
    written(WORDS)
    for words in (["--help"], ["shop.kinds", "melt.stale"]):
        with subprocess.Popen([WHO, *words], stdout=subprocess.PIPE, stderr=subprocess.PIPE) as left:
            left.stdout.close()
            assert not left.stderr.read() and left.wait() == 0, words


def test_who_table(folder):
    """Objects and words of each kind and place, made, kept after each third, and on disk; the largest first."""
    written(WORDS)
    ran = who("--csv", "shop.kinds", "melt.stale", melt="nowhere")
    assert ran.status == 0 and ran.out == TABLE and "thirds end at the uses 30, 60, 90" in ran.told, ran
    ran = who("shop.kinds", "melt.stale")
    lines = [re.split("  +", line.strip()) for line in ran.out.splitlines()[3:]]
    assert lines[0] == ["kind", "place", "made", "words", "at use 30", "words", "at use 60", "words", "at use 90", "words", "last used",
                        "on disk", "words", "held by"], ran
    assert [",".join(line) for line in lines[1:]] == TABLE.splitlines()[1:] and not ran.told, ran


def test_who_no_file(folder):
    """Where there is no file, nothing has moved; an empty one has no records."""
    written(WORDS)
    for name in ("nowhere", "empty", "one"):
        if name != "nowhere":
            pathlib.Path(name).write_bytes(bytes(8 * (name == "one")))
        ran = who("--csv", "shop.kinds", name)
        assert ran.status == 0 and ("there is no file nowhere: nothing has moved" in ran.told) == (name == "nowhere"), ran
        assert {row["words_on_disk"] for row in rows_of(ran.out)} == {"0"}, ran


def changed(at, *words):
    return WORDS[:at] + list(words) + WORDS[at + len(words):]


DAMAGE = {                     # what is wrong, the words, and at which of them the file is refused
    "no kind": (changed(1, WORDS[1] + 2), 1), "zeros": ([0] * 20, 1), "too many words": (changed(1, WORDS[1] + 59 * 2**16), 1),
    "bits between": (changed(1, WORDS[1] + 2**24), 1), "another home": (changed(8, WORDS[8] + 2**32), 8),
    "a Body with a scion": (changed(2, 1), 2), "a Stub without": (changed(9, 0), 9), "a scion too high": (changed(9, 2**30), 9),
    "a slot that is an address": (changed(3, 4), 3), "a slot that leads to no record": (changed(3, 9 * 4 + 3), 3),
    "no identity": (changed(4, 0), 4), "an identity that is not there": (changed(4, 7), 4), "another shape": (changed(4, 6), 1),
    "twice": (changed(8, *record_of(BODY, 8, 0, [0], [1, 0, 0, 0])), 11), "no number word": ([0, *record_of(BODY, 1, 0, [0], [])], 1),
    "cut in a Body": (WORDS[:5], 1), "cut in a head": (WORDS[:-1], 27), "more after": (WORDS + [0, 0], 30),
}


def test_who_bad_records(folder):
    """A file with a bad record, or an identity or a shape that NAME.kinds lacks, is refused at that word."""
    from replaying.kinds import Kinds
    from replaying.stale import BadRecord
    written(WORDS)
    kinds = Kinds("shop.kinds")
    for name, (words, at) in DAMAGE.items():
        try:
            kinds.on_disk(words)
        except BadRecord as bad:
            assert bad.word == at, (name, bad)
        else:
            assert False, name
    for name in ("zeros", "an identity that is not there", "another shape", "cut in a head"):
        written(DAMAGE[name][0])
        ran = who("shop.kinds", "melt.stale")
        assert ran.status == 2 and ran.told.startswith(f"who: melt.stale, word {DAMAGE[name][1]}: ") and not ran.out, (name, ran)
    written(WORDS)
    with open("melt.stale", "ab") as file:
        file.write(b"cut")
    assert who("shop.kinds", "melt.stale").told.startswith(f"who: melt.stale, word {len(WORDS)}: ")


def test_who_any_bits(folder):
    """Whatever bits are changed, a file is told or refused."""
    from replaying.kinds import Kinds
    from replaying.stale import BadRecord
    written(WORDS)
    kinds, rng, refused = Kinds("shop.kinds"), random.Random(3), 0
    assert kinds.on_disk(WORDS) == {1, 5}
    for _ in range(3000):
        words = list(WORDS)
        words[rng.randrange(1, len(words))] ^= 1 << rng.randrange(64)
        try:
            assert kinds.on_disk(words) <= set(range(1, 7))
        except BadRecord as bad:
            refused += 1
            assert 1 <= bad.word <= 64 + len(WORDS)
    assert 1000 < refused < 3000, refused


def test_who_bad_kinds(folder):
    """A file NAME.kinds that tools/record would not write is refused at that line."""
    from replaying.kinds import Kinds
    lines = KINDS.splitlines(True)
    for line, text in ((1, "kinds 2\n"), (3, "window\n"), (5, "last x\n"), (7, lines[7]), (7, lines[6].replace("Session\t", "")),
                       (8, lines[7].replace("40", "x")), (9, "other\n"), (11, lines[10].replace("\t4\t", "\t5\t")),
                       (11, lines[10].replace("\t4\t", "\t9\t")), (12, lines[11].rstrip())):
        written(WORDS, "".join([*lines[:line - 1], text, *lines[line:]]))
        status, told = told_by(Kinds, "shop.kinds")
        assert status == 2 and told.startswith(f"shop.kinds, line {line}: "), (line, told)
    for text in ("", "kinds 1\n", "\xff\n"):
        written(WORDS, text)
        ran = who("shop.kinds", "melt.stale")
        assert ran.status == 2 and ran.told.startswith("who: shop.kinds, line ") and not ran.out, ran


def test_who_bad_words(folder):
    """Bad words are told with status 1; and so is a recording that is not there."""
    written(WORDS)
    for words in ([], ["nowhere.kinds"], ["."], ["--other", "shop.kinds"], ["shop.kinds", "melt.stale", "more"], ["shop.kinds"]):
        assert told_by(loaded(WHO).given_words, words)[0] == 1, words
    ran = who("shop.kinds")
    assert ran.status == 1 and ran.told.startswith("who: there is no file shop.trace") and not ran.out, ran
    os.mkfifo("pipe")
    for name in (".", "pipe"):
        ran = who("shop.kinds", name)
        assert ran.status == 2 and ran.told == f"who: {name} is no file\n" and not ran.out, ran


def test_who_after_a_run(folder):
    """Of what the program leaves, it tells the objects that the model has on the disk, for as long as it moves and brings back."""
    record("--places", program("keeps.py", KEEPS))
    made = rows("keeps")
    for words in (["--heap=600"], ["--heap=300", *MOVING]):
        leave_file("keeps.trace", *words)
        found = counted("keeps.trace", ["--quiet", *words], has_collects=False).on_disk
        heads, count = [row for row in made if row[0] == "object"], Counter()
        for thing in found:
            row = made[thing.numbers[0] - 1]
            head = row if row[0] == "object" else made[int(row[5]) - 1]
            count[head[7], "words"] += thing.words
            count[head[7], "objects"] += row is head
        told = rows_of(who("--csv", "keeps.kinds", "melt.stale").out)
        for kind in {row[7] for row in heads}:
            of_kind = [row for row in told if row["kind"] == kind]
            assert sum(int(row["on_disk"]) for row in of_kind) == count[kind, "objects"], (words, kind)
            assert sum(int(row["words_on_disk"]) for row in of_kind) == count[kind, "words"], (words, kind)
            assert sum(int(row["made"]) for row in of_kind) == sum(row[7] == kind for row in heads)
        places = {row["place"] for row in told if row["kind"] == "Thing"}
        assert count["Thing", "objects"] > 10 and places == {f"{folder}/keeps.py:{line}" for line in (3, 6)}, told


def test_who_replays(folder):
    """Without a file, it tells of a run in half of the plain need."""
    record(program("keeps.py", KEEPS))
    need = int(re.search(r"plain need: (\d+)", heaps("--heap", 300, "keeps.trace").out)[1])
    path = trace("more")
    path.write_text(pathlib.Path("keeps.trace").read_text().replace("done\n", "collect\ndone\n"))
    leave_file(path, f"--heap={need // 2}")
    ran = who("--csv", "keeps.kinds")
    assert ran.status == 0 and ran.out == who("--csv", "keeps.kinds", "melt.stale").out, ran
    assert f"in a heap of {need // 2} words, half of the plain need of {need}: it ended done, and its file is told" in ran.told, ran


def test_who_replay_fails(folder):
    """A run that is killed, a trace that is refused, and one of another recording are told."""
    written(WORDS)
    trace("shop", "new 16 0 0")
    ran = who("shop.kinds")
    assert ran.status == 2 and "error trace 5 9" in ran.told and not ran.out, ran
    trace("shop", "new 1 0 0")
    ran = who("shop.kinds")
    assert ran.status == 2 and "30" in ran.told and "1 operations" in ran.told, ran
    trace("shop", "repeat 15", "new 1 0 0", "gstore 0 1", "end")
    for does, status, told in (("kill -9 $$", 3, "killed by SIGKILL"), ("exit 0", 3, "not whole")):
        ran = who("shop.kinds", melt=program_that("fails", f'if (($# == 4)); then {does}; fi; exec "$MELT" "$@"'))
        assert ran.status == status and told in ran.told and not ran.out, ran
    trace("shop", "repeat 15", "new 1 0 62", "gstore 0 1", "end")
    ran = who("shop.kinds")
    assert ran.status == 0 and "with status 5 end out-of-heap" in ran.out and "nothing has moved" in ran.out, ran
    assert who("shop.kinds", melt="nowhere").status == 3
