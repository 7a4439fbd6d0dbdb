"""Tests of what tools/record records: uses, objects, what they lead to, and what a program sees of it."""
import os
import pathlib
import subprocess
import sys

from tooling.calls import operations, program, record, recorded, replay, rows, uses

# It makes, changes and drops objects of all kinds by chance, some through built-in functions that no use tells of.
MANY = """import collections, functools, heapq, random, sys, types
class Node:
    def __init__(self, *kids): self.kids = list(kids); self.kept = {}
class Slots:
    __slots__ = "one", "two"
class Odd(dict):
    pass
rng = random.Random(int(sys.argv[1]))
table, queue, heap, kept = {}, collections.deque(), [], Node()
@functools.lru_cache(8)
def cached(n): return Node()
def closed(thing):
    def inner(): return thing
    return inner
def walks(thing):
    yield thing
    yield Node(thing)
def some(): return rng.choice([*table.values(), kept, *queue, None][-40:])
def act(n):
    local = [Node(some()) for _ in range(rng.randint(0, 3))]
    kind = rng.randrange(18)
    if kind == 0: table[n] = Node(*local)
    elif kind == 1: table[rng.randrange(n + 1)] = some()
    elif kind == 2 and table: del table[next(iter(table))]
    elif kind == 3: queue.extend(local)
    elif kind == 4 and queue: queue.popleft()
    elif kind == 5: heapq.heappush(heap, (rng.random(), n, some()))
    elif kind == 6 and heap: heapq.heappop(heap)
    elif kind == 7: kept.kids.append(tuple(local)); random.Random(n).shuffle(kept.kids)
    elif kind == 8 and len(kept.kids) > 70: kept.kids.clear()
    elif kind == 9: kept.kept[n % 90] = closed(some())
    elif kind == 10: kept.kept[n % 90] = walks(some()); next(kept.kept[n % 90])
    elif kind == 11: cached(n % 12).kids = local
    elif kind == 12: thing = Slots(); thing.one = some(); table[n] = thing
    elif kind == 13: vars(kept)[f"v{n % 7}"] = some()
    elif kind == 14: table[n] = Odd(a=some(), b="x" * rng.randrange(6000), c=bytearray(n))
    elif kind == 15 and table: table.update(dict.fromkeys(range(rng.randrange(150)), some()))
    elif kind == 16: [o.extend(b"more" * 9) for t in table.values() if type(t) is Odd for o in t.values() if type(o) is bytearray]
    elif kind == 17 and len(table) > 150: table.clear()
    for thing in local: thing.kids.append(thing)
    return local
for n in range(int(sys.argv[2])): act(n)
"""


def test_many_kinds(folder):
    """On programs of chance, the fast way finds in each window what the full walk finds, and replays are exact."""
    many = program("many.py", MANY)
    for seed, window in ((1, 20), (2, 150), (3, 1)):
        recorded("many", "--force", "--check-fast", "--window", window, many, seed, 30 if window == 1 else 600)


def test_check_finds(folder):
    """A fast way that overlooks a change is found out by the check."""
    from recording.graph import Block, Differs, Graph
    things = [[[]], {}]
    looks = Block.is_as_it_was
    for overlooks in (False, True):
        graph = Graph()
        graph.update(graph.by_comparing([things, []]))
        things[0].append([1])
        try:
            Block.is_as_it_was = (lambda block: True) if overlooks else looks
            graph.update(graph.by_comparing([things, []]))
            graph.compare(graph.walk([things, []]))
        except Differs:
            assert overlooks
        else:
            assert not overlooks
        finally:
            Block.is_as_it_was = looks


def test_identities_as_bytes(folder):
    """The identities of things in a tuple are told as bytes."""
    from recording import roles
    things = None, 1, "text", [], {}, roles, roles.ROLES, recorded
    for some in ((), things[:1], things, things * 40):
        assert roles.identities(some) == b"".join(id(thing).to_bytes(8, sys.byteorder) for thing in some)


def test_lets_go(folder):
    """Where no more is recorded, nothing of the program is held any more but what it used last, and its finalizers have run."""
    text = ("class Count: number = 0\nclass Thing:\n    def __init__(self, count): self.count, self.me = count, [count]\n"
            "    def __del__(self): self.count.number += 1\ncount = Count()\nfor n in range(400): thing = Thing(count)\n"
            "del thing\nprint(count.number)\n")
    ran = recorded("deletes", "--window", 5, "--operations", 200, program("deletes.py", text))
    assert "the trace is full" in ran.told and 400 - 5 <= int(ran.out) <= 400, ran


def test_full_walk(folder):
    """--full records as much as the fast way."""
    many = program("many.py", MANY)
    recorded("many", "--window", 50, many, 4, 200)
    recorded("full", "--full", "--out", "full", "--window", 50, many, 4, 200)
    assert uses("many") == uses("full") and len(rows("many")) == len(rows("full"))


def test_identities(folder):
    """Each object of the trace has its identity in number word 0, from 1 and never changed, and the shape that NAME.kinds tells."""
    recorded("many", program("many.py", MANY), 5, 300)
    lines, made = operations("many"), []
    for at, line in enumerate(lines):
        word, *fields = line.split()
        if word == "new":
            made.append([fields[1], fields[2]])
            assert lines[at + 1] == f"put {fields[0]} 0 {len(made)}"
        elif word == "put":
            assert lines[at - 1].startswith("new ")
        elif word == "get":
            assert fields[1] == "0"
    assert made == [row[2:4] for row in rows("many")]
    assert [row[1] for row in rows("many")] == [str(n) for n in range(1, len(made) + 1)]


def test_uses(folder):
    """Each use is counted, and each used object read back once in a window."""
    text = """class Thing:
    pass
one = Thing()
one.two = Thing()
one.two.list = [Thing(), Thing()]
for thing in one.two.list:
    thing.x = 0
one.two.list[0].x += 1
one in one.two.list
del one.two.list[0]
"""
    recorded("counted", program("counted.py", text))
    assert uses("counted") == 1 + 2 + 3 + 2 + 4 + 3 + 3
    assert sum(line.startswith("get") for line in operations("counted")) == 4      # the first in the list is gone
    recorded("counted", "--force", "--window", 1, "counted.py")
    assert sum(line.startswith("get") for line in operations("counted")) == uses("counted")


def test_times_and_ways(folder):
    """When an object was made, last used and gone is told, and the shortest way to it."""
    text = """class Session:
    pass
class Shop:
    items = [Session()]
    def __init__(self): self.now = Session()
sessions = {}
shop = Shop()
def main():
    for n in range(10):
        sessions[n] = Session()
    sessions[3].x = 1
    del sessions[4]
    sessions.get(0)
main()
"""
    recorded("shop", "--window", 1, program("shop.py", text))
    told = {tuple(row[4:7]): row[9] for row in rows("shop", "Session")}
    ways = sorted(row[9] for row in rows("shop", "Session"))
    held = ["shop.Shop.items > list > Session"] + ["shop.sessions > dict > Session"] * 9 + ["shop.shop > Shop > Session"]
    assert ways == ["-", *held], ways
    assert ("7", "14", "-") in told and ("8", "-", "16") in told, told     # the object of key 3, and that of key 4


def test_places(folder):
    """Where tracemalloc is on, the line is told at which an object was made."""
    text = "class Thing:\n    pass\nthings = []\n\nthings.append((\n    Thing(), things))\n"
    recorded("placed", "--places", program("placed.py", text))
    assert [row[8] for row in rows("placed", "Thing")] == [f"{folder}/placed.py:6"]
    recorded("placed", "--force", "placed.py")
    assert [row[8] for row in rows("placed", "Thing")] == ["-"]
    recorded("placed", "--force", "placed.py", env={**os.environ, "PYTHONTRACEMALLOC": "1"})
    places = [row[8] for kind in ("Thing", "tuple") for row in rows("placed", kind)]
    assert places == [f"{folder}/placed.py:{line}" for line in (6, 5)], places


def test_trees_of_cells(folder):
    """What has more than 62 slots or words is a tree of cells, which grows and shrinks and keeps its head."""
    text = """class Thing:
    x = 1
many, text = [], "x" * 40_000
for n in range(1000):
    many.append(Thing())
many[0].x = many[999].x = many[500].x
del many[3:]
"""
    recorded("many", "--window", 100, program("many.py", text))
    heads = rows("many", "list") + rows("many", "str")
    cells = [[row for row in rows("many") if row[0] == "cell" and row[5] == head[1]] for head in heads]
    assert len(heads) == 2 and len(cells[0]) > 1000 // 62 and len(cells[1]) > 70
    assert sum(row[6] == "-" for row in cells[0]) < 4, cells[0]
    words = sum(2 + int(row[2]) + int(row[3]) for row in cells[1] + heads[1:])
    assert 5_007 - 62 <= words < 5_500, words


def test_deep(folder):
    """A chain longer than there are registers is walked, and a bushy tree too."""
    text = """class Node:
    def __init__(self, *kids): self.kids = kids
def tree(depth): return Node(*[tree(depth - 1) for _ in range(2)]) if depth else Node()
def visit(node):
    for kid in node.kids: visit(kid)
chain, bush = None, tree(9)
for n in range(300): chain = Node(chain)
last = chain
while last.kids[0]: last = last.kids[0]
last = None
visit(bush)
"""
    recorded("deep", "--window", 5000, program("deep.py", text))


def test_registers(folder):
    """Where registers do not suffice for a tree of ways, each node is come to all the same."""
    from recording import walks
    tree, count = {}, 1
    for depth in range(15):
        for node in range(count, 2 * count):
            tree[node] = [2 * node, 2 * node + 1]
        count *= 2
    held, visited = {}, []

    def load(parent, source, node, register):
        assert parent is None or held[source] == parent
        assert walks.FIRST <= register <= walks.LAST
        held[register] = node
    walks.go(tree, 1, load, lambda node, register: visited.append(node))
    assert sorted(visited) == list(range(1, 2 * count))


def test_shelf(folder):
    """One window may change more objects than one level of cells has places for."""
    text = """class Node: pass
nodes = [Node() for _ in range(2700)]
nodes[0].x = 1
for n, node in enumerate(nodes): node.next = nodes[(n * 7 + 1) % 2700]
"""
    recorded("many", "--window", 3000, program("many.py", text))


def test_threads(folder):
    """A program with threads is recorded as one, and that is said."""
    text = """import threading
class Thing: pass
lists = [[] for n in range(4)]
def work(mine):
    for n in range(400):
        mine.append(Thing())
        mine[n].x = n
threads = [threading.Thread(target=work, args=(mine,)) for mine in lists]
for thread in threads: thread.start()
"""
    ran = recorded("threads", "--window", 30, program("threads.py", text))
    assert "recorded as one" in ran.told and len(rows("threads", "Thing")) == 1600, ran
    assert "threads" not in recorded("alone", program("alone.py", "x = []\nx.append(1)\n")).told


def test_watched(folder):
    """Modules beside the program are watched, others where they are named, also those that the recorder has itself."""
    os.mkdir("beside")
    module = "class {0}: pass\nkept = []\nfor n in range(9): kept.append({0}())\n"
    for name in ("near", "recording", "trace"):
        program(f"beside/{name}.py", module.format(name.title()))
    os.mkdir("elsewhere")
    program("elsewhere/far.py", module.format("Far"))
    main = program("beside/main.py", "import argparse, far, near, recording, trace\nargparse.ArgumentParser(prog='x').parse_args([])\n")
    given = {**os.environ, "PYTHONPATH": "elsewhere"}
    recorded("main", main, env=given)
    assert [len(rows("main", kind)) for kind in ("Near", "Recording", "Trace", "Far")] == [9, 9, 9, 0]
    before = uses("main")
    recorded("main", "--force", "--watch", "far,argparse", main, env=given)
    assert len(rows("main", "Far")) == 9 and uses("main") > before + 50


PLAIN = '''from __future__ import annotations
"""not a docstring"""
import dataclasses, enum, sys, traceback
class Color(enum.Enum):
    RED = 1
@dataclasses.dataclass
class Point:
    x: int
    y: "list.sort" = 0
    def __private(self): return self.x
    def seen(self): return self.__private()
class Special(Point):
    def __init__(self, *given): super().__init__(*given); super().seen.__call__()
class Proxy:
    def __getattribute__(self, name): print("asked for", name); return object.__getattribute__(self, name)
    def __eq__(self, other): print("compared"); return True
    def __hash__(self): print("hashed"); return 1
    def __len__(self): print("measured"); return 0
    def __iter__(self): print("walked"); return iter(())
    def __bool__(self): print("judged"); return False
    __class__ = property(lambda self: print("asked for its class"))
class Meta(type):
    def __getattribute__(cls, name): print("class asked for", name); return type.__getattribute__(cls, name)
class Strange(metaclass=Meta): pass
class Goes:
    def __del__(self): print("gone")
def told(point):
    match point:
        case Point(x=1, y=Color.RED): return "red"
        case Special() if point.x: return f"{point.x!r:>{point.y}}"
        case _: return None
proxy, strange, kept = Proxy(), Strange(), [Proxy(), Strange()]
for kind in (Point, Special): print(told(kind(1, Color.RED)), told(kind(2, 3)))
print(Special(5, 6).seen(), [q.x for q in [Point(1)] if q.y in {0: 1}], (lambda p: p.x)(Point(4)))
point = Point(1)
point.x += 1; point.y = [1, 2]; point.y[0] -= 1; del point.y[1]
point.z: int.real = 3
print(vars(point), Point.__annotations__, told.__annotations__, __name__, sys.argv[1:], __file__)
async def waits():
    async def numbers():
        yield point.x
    return [n async for n in numbers()]
try: waits().send(None)
except StopIteration as stop: print(stop.value)
try: point.nothing
except AttributeError: print(traceback.format_exc())
def recursive(n): return recursive(n - 1) if n else 0
recursive(900)
goes = Goes(); goes = None
for n in range(20): kept[0:1]
'''


def test_same_program(folder):
    """A program does what it does without the recorder, and is asked nothing by it."""
    plain = program("plain.py", PLAIN)
    alone = subprocess.run([sys.executable, plain, "--window", "a"], capture_output=True, text=True)
    assert alone.returncode == 0, alone
    for window in (1, 10):
        ran = recorded("plain", "--force", "--check-fast", "--window", window, plain, "--window", "a")
        assert sorted(without_carets(ran.out)) == sorted(without_carets(alone.stdout)), (ran.out, alone.stdout)


def without_carets(text):
    """A trace of calls marks columns, which are those of the rewritten program."""
    return [line for line in text.splitlines() if set(line) - set(" ^~")]


def test_let_go(folder):
    """What a frame held, and nobody holds any more, goes by the end of the next window; variables that a program looks at stay."""
    text = """import weakref
class Thing: pass
def walks():
    thing = Thing()
    seen = weakref.ref(thing)
    for n in range(20): thing.x = n
    thing = None
    yield seen
def looks():
    thing = Thing()
    here = locals()
    for n in range(20): thing.x = n
    return here["thing"] is thing
generator = walks()
seen = next(generator)
other = Thing()
for n in range(20): other.x = n
print(seen() is None, looks())
"""
    assert recorded("goes", "--window", 3, program("goes.py", text)).out == "True True\n"


def test_empty(folder):
    """A program without a use, and one of nothing."""
    recorded("empty", program("empty.py", ""))
    assert uses("empty") == 0
    recorded("idle", program("idle.py", "x = [1]\ny = {2: x}\n"))
    assert uses("idle") == 0 and len(rows("idle", "list")) == 1


def test_one_window_each(folder):
    """A heap that is just as large as has to be is enough: the registers of a window hold little."""
    recorded("many", program("many.py", MANY), 6, 200)
    replay("many", ["--heap", "2000"], ["--heap", "2000", "--every", "13", "--mark", "10", "--move", "20"])
    assert pathlib.Path("many.trace").read_text().startswith("melt 1\nthreads 1\n") and record("many.py").status == 3
