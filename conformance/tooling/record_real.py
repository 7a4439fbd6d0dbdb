"""The programs of examples/real, some 20,000 operations of each, by both ways at once and replayed."""
import importlib.util

from tooling.calls import REAL, operations, recorded, replay, rows

MOST = 20_000
HEAPS = ["--heap", "65536"], ["--heap", "16384"]


def real(name, size, *words):
    """Records a program with the check, and replays it over small heaps too."""
    recorded(name, "--check-fast", "--operations", MOST, *words, REAL / f"{name}.py", size)
    assert 0.75 * MOST < len(operations(name)) <= MOST
    replay(name, *HEAPS)


def ways(name, kind):
    return {row[9] for row in rows(name, kind) if row[6] == "-"}


def test_sessions(folder):
    """A session store that never forgets: each session is held by the store."""
    real("sessions", 1_000)
    assert "sessions.shop > Shop > Store > dict > Session" in ways("sessions", "Session")
    assert not any(row[6] != "-" for row in rows("sessions", "Session"))


def test_evictions(folder):
    """A broken eviction: pages are held by the lists of their parts."""
    real("evictions", 1_000)
    assert "evictions.cache > Cache > dict > list > Page" in ways("evictions", "Page")


def test_trees(folder):
    """A parser that keeps its trees, where Python has lib2to3."""
    if importlib.util.find_spec("lib2to3") is None:
        print("test_trees: this Python has no lib2to3, so this program is left out")
        return
    real("trees", 3, "--watch", "lib2to3", "--from-use", 70_000)      # after the making of the grammar
    assert any(way.startswith("trees.trees > dict > Node") for way in ways("trees", "Leaf"))
