"""Small traces whose threads load and store at once in the same few places, which have tags. Where a silent collection comes after
each operation, all threads begin the next one at the same time, and find all tags set again."""
from fuzzing.traces import Globals, whole

MOST = 56                 # operations of all threads: more of them that race are not judged in a short time


def object_of(number, register, slots):
    """Lines that make an object with slots and a number of its own, by which it is known again."""
    return [f"new {register} {slots} 1", f"put {register} 0 {number}"]


def programs_of(rng, threads, first, act):
    """Programs of one length about, of which the first begins with these lines."""
    length = max(2, (MOST - len(first)) // (2 * threads))
    programs = []
    for thread in range(threads):
        program = list(first) if not thread else []
        for _ in range(rng.randint(length // 2, length)):
            program += act(thread)
        programs.append(program)
    return programs


def slots(rng):
    """A slot behind a global: some threads load it again and again, and others store there what they made, and look whether it is
    still there."""
    threads, numbers = rng.choice([2, 2, 3]), iter(range(10, 1_000))
    first = [*object_of(1, 0, 1), *object_of(2, 1, 0), "store 0 0 1", "gstore 0 0", *rng.choice([[], ["drop 1"]])]
    writers = rng.randint(1, threads - 1)

    def act(thread):
        if thread < writers and rng.random() < 0.6:
            return [*object_of(next(numbers), 1, 0), "store 0 0 1", *rng.choice([[], ["load 2 0 0", "get 2 0"], ["load 2 0 0", "same 1 2"]])]
        return rng.choice([["load 2 0 0"], ["load 2 0 0", "get 2 0"], ["load 2 0 0", "load 3 0 0", "same 2 3"], ["get 2 0"]])

    programs = programs_of(rng, threads, first, act)
    programs = [program if not thread else ["gload 0 0"] * rng.randint(2, 8) + program for thread, program in enumerate(programs)]
    return whole(Globals(1), [], programs), {"heap": rng.choice([64, 256]), "mark": 0, "move": rng.choice([0, 100, 100])}


def homes(rng):
    """A few objects on the disk, each behind several globals, and one forwarding word for all of them: threads load them, write
    into them, and look whether they found the same."""
    threads, globals_ = rng.choice([2, 2, 3, 4]), rng.randint(2, 4)
    objects = rng.choice([1, 1, 2])
    first = [line for number in range(objects) for line in object_of(number + 1, number, 0)]
    first += [f"gstore {g} {g % objects}" for g in range(globals_)] + [f"drop {number}" for number in range(objects)]

    def act(thread):
        g, other = rng.randrange(globals_), rng.randrange(globals_)
        return rng.choice([
            [f"gload 0 {g}"], [f"gload 0 {g}", f"gload 1 {other}", "same 0 1"], [f"gload 0 {g}", f"put 0 0 {rng.randint(10, 99)}"],
            [f"gload 1 {g}", "get 1 0"], [f"gload 1 {g}", "get 0 0", "same 0 1"], ["drop 0"], ["drop 0", "drop 1"]])

    return whole(Globals(globals_), [], programs_of(rng, threads, first, act)), {
        "heap": rng.choice([16, 64]), "mark": 0, "move": 0, "forward": rng.choice([1, 1, 2])}


def three(rng):
    """A heap with room for three objects, which all threads make at once, share, and lose again."""
    threads, slots_ = rng.choice([2, 3, 4]), rng.choice([1, 2, 3])
    numbers = iter(range(1, 1_000))

    def act(thread):
        return rng.choice([
            [*object_of(next(numbers), 0, slots_), "get 0 0"], [*object_of(next(numbers), 0, slots_), "gstore 0 0"], ["gload 1 0", "get 1 0"],
            ["gload 1 0", "load 2 1 0", "same 1 2"], ["load 2 0 0"], ["store 0 0 1"], ["drop 0"], ["drop 1", "drop 2"], ["gstore 0 15"]])

    given = {"heap": max(16, 3 * (3 + slots_)), **rng.choice([{}, {"mark": 0}, {"mark": 0, "move": 0, "forward": 1}])}
    return whole(Globals(1), [], programs_of(rng, threads, [], act)), given


def trace(rng):
    """The lines of a trace, and the options under which it is to be run."""
    lines, given = rng.choice([slots, homes, three])(rng)
    if rng.random() < 0.7:
        given["every"] = rng.choice([1, 1, 1, 2])
    return lines, given
