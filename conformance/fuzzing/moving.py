"""Random traces in which objects move to a disk and come back."""
from fuzzing.traces import KINDS, Globals, Mood, events_exactly, events_of, lines_of_program, orders, probes, whole


def graph(rng, globals_, most):
    """Lines that make some objects with slots that lead to each other, put them into globals, and drop the registers."""
    count = rng.randint(1, most)
    shapes = [(rng.choice([0, 1, 1, 2, 3]), rng.choice([0, 1, 1, 2])) for _ in range(count)]
    lines = []
    for number, (p, q) in enumerate(shapes):
        lines.append(f"new {number} {p} {q}")
        lines += [f"put {number} {j} {10 * number + j + 1}" for j in range(q)]
    for number, (p, _) in enumerate(shapes):
        lines += [f"store {number} {i} {rng.randrange(count)}" for i in range(p) if rng.random() < 0.8]
    lines += [f"gstore {g} {rng.randrange(count)}" for g in range(globals_) if g == 0 or rng.random() < 0.8]
    return lines + [f"drop {number}" for number in range(count) if rng.random() < 0.9]


def apart(rng, globals_):
    """Lines that make an object for each global."""
    lines = []
    for g in range(globals_):
        lines += [f"new 0 {rng.randint(0, 2)} {rng.choice([0, 1])}", f"gstore {g} 0"]
    return lines + ["drop 0"]


def asks(rng):
    """The collects after which a first object is on the disk, or fewer, or more."""
    return ["collect"] * rng.choice([2, 3, 3, 3, 3, 4, 5])


def uses(rng, mood, length):
    """Operations that find out where objects are, more than they make new ones."""
    mood.weights.update(new=rng.choice([0, 1, 3]), load=6, gload=6, get=3, same=3, store=2, gstore=1, drop=rng.choice([0.3, 2]),
                        collect=rng.choice([0, 0.5, 2]))
    return lines_of_program(mood, length)


def returns(rng):
    """Objects that move to the disk and are used by all threads."""
    mood = Mood(rng)
    mood.threads, mood.globals, mood.registers = rng.choice([1, 1, 2, 2, 3]), rng.randint(1, 4), rng.choice([2, 3, 4])
    mood.large, mood.slots, mood.numbers = False, rng.choice([1, 2, 3]), rng.choice([0, 1, 2])
    first = graph(rng, mood.globals, 5)
    programs = []
    for number in range(mood.threads):
        program = first + asks(rng) if not number else rng.choice([[], ["collect"], ["collect"]])
        for _ in range(rng.choice([1, 1, 2, 3])):
            program = program + uses(rng, mood, rng.randint(2, 12)) + rng.choice([[], ["collect"], asks(rng)])
        programs.append(program + (probes(mood) if rng.random() < 0.7 else []))
    ordered = [f"order 0 {events_of(first)}"] + (orders(rng, mood.threads, 30) if rng.random() < 0.6 else [])
    return whole(mood, ordered, programs), options(rng, 40)


def commits(rng):
    """Threads that use the same few homes at the same time, event by event."""
    mood = Mood(rng)
    mood.threads, mood.globals, mood.registers, mood.blocks = rng.choice([2, 2, 3]), rng.choice([1, 2, 2, 3]), 3, 0
    mood.slots, mood.numbers, mood.large = 2, 1, False
    first = graph(rng, mood.globals, 3) if rng.random() < 0.5 else apart(rng, mood.globals)
    words = [f"gload {r} {g}" for r in range(2) for g in range(mood.globals)]
    words += ["load 1 0 0", "load 0 1 0", "load 2 0 1", "gstore 0 1", "gstore 0 2", "store 0 0 1", "get 0 0", "same 0 1",
              "new 2 0 1", "drop 0", "collect"]
    chances = [6] * (2 * mood.globals) + [4, 4, 4, 1, 1, 1, 2, 2, 1, 0.5, 0.3]
    programs = []
    for number in range(mood.threads):
        program = [*first, "collect", "collect"] if not number else ["collect"]
        program += [f"gload 0 {rng.choice([number % mood.globals, rng.randrange(mood.globals)])}"] * (rng.random() < 0.9)
        program += rng.choices(words, chances, k=rng.randint(1, 8))
        programs.append(program + probes(mood))
    ordered = [f"order 0 {events_exactly(first) + 1}"] if rng.random() < 0.7 else [f"order 0 {events_of(first)}"]
    ordered += [f"order {number} 1" for number in range(1, mood.threads)] + ["order 0 1"]
    size = rng.choice([1, 2, 3, 6])
    ordered += [f"order {rng.randrange(mood.threads)} {rng.randint(1, size)}" for _ in range(rng.choice([0, 10, 30, 60]))]
    given = options(rng, 30)
    given.update(mark=0, move=0, forward=rng.choice([1, 2, 2, 3, 4, 7, 1_024]))
    return whole(mood, ordered, programs), given


def meetings(rng):
    """Objects of one size that come back to a few forwarding words, where the searches for many homes start at one place; while
    they come, event by event, other threads bring back some more or write over what leads to them."""
    threads, globals_, numbers = rng.choice([1, 2, 2, 2, 3, 3]), rng.randint(2, 7), rng.choice([0, 0, 1, 2, 2, 4, 6])
    first = []
    for g in range(globals_):
        first += [f"new 0 0 {numbers}", *([f"put 0 0 {g + 1}"] if numbers and rng.random() < 0.3 else []), f"gstore {g} 0"]
    first.append("drop 0")
    programs = []
    for number in range(threads):
        wanted = [rng.randrange(globals_)] if number else rng.sample(range(globals_), rng.randint(1, globals_))
        program = [f"gload {rng.randrange(3)} {g}" for g in wanted]
        for _ in range(rng.randint(1, 6)):
            g, r = rng.randrange(globals_), rng.randrange(3)
            program += rng.choices([[f"gload {r} {g}"], [f"gstore {g} 15"], [f"gload {r} {g}", f"gload 15 {g}", f"same {r} 15", "drop 15"],
                                    [f"get {r} 0"], ["collect"]], [6, 3, 2, 1, 0.3 if number else 1])[0]
        programs.append(program)
    begins = ["collect"] * (2 if threads > 1 else 3)
    programs[0] = first + begins + programs[0] + rng.choice([[], ["collect"], asks(rng), asks(rng) + [f"gload 0 {g}" for g in range(globals_)]])
    if threads > 1:
        programs[1] = ["collect", *programs[1]]
    ordered = [f"order 0 {events_exactly(first) + 1}"] if rng.random() < 0.9 else []
    ordered += [f"order {number} 1" for number in range(1, threads)] + ["order 0 1"]
    size = rng.choice([1, 2, 4, 9, 20])
    ordered += [f"order {rng.randrange(threads)} {rng.randint(1, size)}" for _ in range(rng.choice([0, 10, 30, 60]))]
    given = {"heap": max(16, globals_ * (2 + numbers) + rng.choice([0, 0, 6, 30])), "mark": 0, "move": 0, "forward": rng.randint(1, 7)}
    return whole(Globals(globals_), ordered, programs), given


def stubs(rng):
    """A few objects behind several globals, each of which leads to the disk until it is loaded itself."""
    globals_, registers = rng.randint(2, 5), rng.randint(1, 3)
    first = []
    for number in range(rng.choice([1, 1, 2])):
        first += [f"new {number} {rng.randint(0, 1)} {rng.randint(0, 2)}"] + ["store 1 0 0"] * (number and rng.random() < 0.5)
    first += [f"gstore {g} {rng.randint(0, number)}" for g in range(globals_)] + ["drop 0", "drop 1"]

    def acts(length):
        words = [f"gload {rng.randrange(registers)} {rng.randrange(globals_)}", f"drop {rng.randrange(registers)}", "collect",
                 f"load {rng.randrange(registers)} {rng.randrange(registers)} 0", f"gstore {rng.randrange(globals_)} {rng.randrange(registers)}"]
        return [rng.choices(words, [5, 5, 6, 1, 0.5])[0] for _ in range(length)]

    programs = [first + ["collect"] * 3]
    for _ in range(rng.randint(4, 12)):
        programs[0] += acts(1)
    programs[0] += [f"drop {r}" for r in range(registers)] + ["collect"] * rng.randint(0, 3)
    programs[0] += [f"gload {g} {g}" for g in range(globals_)] + [f"same {g} 0" for g in range(globals_)]
    if rng.random() < 0.3:
        programs.append(["collect"] * rng.randint(1, 3) + acts(3) + ["collect"])
    given = options(rng, 30)
    given.update(mark=0, move=0)
    return whole(Globals(globals_), [f"order 0 {events_of(first)}"], programs), given


def leaks(rng):
    """Lists that grow past the heap, and are walked at times."""
    threads = rng.choice([1, 1, 1, 2])
    nodes, numbers = rng.randint(3, 40 // threads), rng.choice([0, 1, 1, 2, 5])
    looks = rng.random() < 0.3
    programs = []
    for thread in range(threads):
        lines = []
        for node in range(nodes):
            lines += [f"new 0 1 {numbers}"] + ([f"put 0 0 {node}"] if numbers else [])
            lines += [f"gload 1 {thread}", "store 0 0 1", f"gstore {thread} 0"]
            lines += rng.choice([[], [], ["drop 1"], ["drop 0", "drop 1"]])
            if looks and rng.random() < 0.2:
                lines += walk(rng, rng.randrange(threads), rng.randint(1, 8))
        for _ in range(rng.choice([0, 1, 1, 2])):
            lines += walk(rng, rng.randrange(threads), nodes + rng.randint(-2, 2))
        programs.append(lines)
    given = options(rng, 60)
    given["heap"] = rng.choice([16, rng.randint(16, 40), max(16, rng.randint(3 * (3 + numbers), 5 * (3 + numbers) + 16))])
    return whole(Globals(threads), orders(rng, threads, 6) if rng.random() < 0.3 else [], programs), given


def walk(rng, number, steps):
    """Lines that go along the list of a global."""
    body = ["get 1 0", "load 1 1 0"]
    return [f"gload 1 {number}", *(body * steps if rng.random() < 0.5 else [f"repeat {max(steps, 1)}", *body, "end"]), "get 1 0"]


def holds(rng):
    """A load of a large object while registers and globals hold what fills the heap, to a word."""
    heap = rng.choice([16, 20, 24, 40])
    large = rng.randint(heap // 4, heap - 2)
    threads = rng.choice([1, 1, 2])
    first = [f"new 0 0 {large - 2}", "gstore 0 0", "drop 0", "collect", "collect", "collect"]
    left, number, keeps = heap - large + rng.choice([-1, 0, 0, 1, 2, 3]), 1, []
    while left >= 2 and number < 15:
        words = min(left, rng.randint(2, max(2, left)))
        keeps += [f"new {number} 0 {words - 2}"]
        left, number = left - words, number + 1
    if rng.random() < 0.6:                     # what a global alone reaches moves, and what a register holds does not
        keeps += [f"gstore 1 {number - 1}"] + ([f"drop {number - 1}"] if rng.random() < 0.7 else [])
    keeps += rng.choice([[], [], ["collect"]])
    last = ["gload 0 0", f"new 15 0 {rng.randint(0, large)}", "gload 14 1", "gload 13 0", "same 0 13"]
    others = [["collect"] * rng.randint(0, 3) + [f"new 0 0 {rng.randint(0, heap - 2)}", "gload 1 0", "same 0 1"]]
    programs = [first + keeps + last[:rng.randint(1, 5)], *others][:threads]
    return whole(Globals(2), orders(rng, threads, 10), programs), {"heap": heap, "mark": 0, "move": rng.choice([0, 0, 50])}


def disks(rng):
    """Objects that fill a disk exactly, or by a word too much, at a planned collection or at one for room."""
    heap = rng.choice([16, 30, 60])
    costs = [rng.randint(2, 10) for _ in range(rng.randint(1, 6))]
    lines, made = [], 0
    for cost in costs:
        lines += [f"new 0 {min(1, cost - 2)} {max(0, cost - 3)}", f"gload 1 0", "store 0 0 1", "gstore 0 0"]
        lines += ["drop 0", "drop 1"] if rng.random() < 0.8 else []
        lines += ["collect"] * rng.choice([0, 0, 1, 2])
        made += cost
    lines += ["collect"] * rng.randint(0, 3) + walk(rng, 0, len(costs)) + ["collect"] * rng.randint(0, 2)
    given = options(rng, heap)
    given.update(heap=heap, disk=max(2, rng.choice([made, made + 1, made + 1, made - 1, rng.randint(2, 2 * made)])))
    return whole(Globals(1), [], [lines]), given


def others(rng):
    """Traces that need no disk, with one."""
    lines, given = rng.choice(KINDS)(rng)
    given.update({name: value for name, value in options(rng, 40).items() if name in ("forward", "disk")})
    if rng.random() < 0.5:
        given.update(mark=0, move=0)
    return lines, given


def options(rng, most):
    """Options by which objects move soon."""
    given = {"heap": rng.randint(16, most)} if rng.random() < 0.8 else {}
    given.update(rng.choice([{"mark": 0, "move": 0}] * 5 + [{}, {"mark": 0}, {"mark": rng.randint(0, 50), "move": rng.randint(50, 100)}]))
    if rng.random() < 0.6:
        given["forward"] = rng.choice([1, 1, 1, 2, 2, 3, 4, 5, 6, 7, 65_536])
    if rng.random() < 0.15:
        given["disk"] = rng.choice([2, rng.randint(2, 20), rng.randint(2, 60), 268_435_456])
    if rng.random() < 0.15:
        given["every"] = rng.choice([1, 2, 3, 5, 7])
    return given


MOVING_KINDS = [returns, returns, returns, commits, commits, commits, meetings, meetings, meetings, stubs, stubs, leaks, leaks, holds, disks, others, others]


def trace(rng):
    """The lines of a trace, and the options under which it is to be run."""
    return rng.choice(MOVING_KINDS)(rng)
