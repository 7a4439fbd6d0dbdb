"""Random calls of `run`: words, and the bytes of a small trace of several threads."""
import itertools
import random

from fuzzing import contested, moving
from fuzzing.traces import KINDS
from modelling.traces import operations_in, script_of

MOST_OPERATIONS = 160     # beside delays: a trace with more is not judged in a short time
LARGEST_HEAP = 4_096
# Work on registers alone, by which a thread is still there when the next one starts. Nothing of it is searched.
DELAYS = (0, 10, 100, 1_000, 4_000)


def delayed(rng, lines):
    """The same lines with work on registers now and then: in front of programs, and between their operations."""
    out, depth = [], 0
    for line in lines:
        word = line.split()[0]
        depth += (word == "repeat") - (word == "end" and depth > 0)
        out.append(line)
        if word == "thread" or (not depth and word in ("put", "store", "gload") and rng.random() < 0.1):
            times = rng.choice(DELAYS)
            out += [f"repeat {times}", "same 15 15", "end"] if times else []
    return out


def crowded(lines, threads):
    """The same programs, done again by more threads."""
    first = lines.index("thread 0")
    programs, head = [], lines[:first]
    for line in lines[first:]:
        if line.startswith("thread "):
            programs.append([])
        else:
            programs[-1].append(line)
    head[head.index(f"threads {len(programs)}")] = f"threads {max(threads, len(programs))}"
    programs += [programs[number % len(programs)] for number in range(len(programs), threads)]
    return head + [line for number, program in enumerate(programs) for line in (f"thread {number}", *program)]


def options_of(rng, given):
    """Options by which threads wait often, and objects move soon."""
    given = {name: value for name, value in given.items() if name != "every"}
    if "heap" not in given or given["heap"] > LARGEST_HEAP:
        given["heap"] = rng.choice([16, 32, 64, 256, LARGEST_HEAP])
    if "forward" in given or rng.random() < 0.3:
        given["forward"] = rng.choice([1, 1, 1, 2, 3, 5, 7])
    if rng.random() < 0.1:
        given["disk"] = rng.randint(2, 80)
    if rng.random() < 0.3:
        given["every"] = rng.choice([1, 1, 2, 3])
    if given.get("mark", 50) > given.get("move", 80):
        given["move"] = 100
    return given


def call_of(seed, number):
    """Call number NUMBER of a seed."""
    for turn in itertools.count():
        rng = random.Random(f"threads {seed} {number} {turn}")
        is_contested = rng.random() < 1 / 3
        lines, given = contested.trace(rng) if is_contested else moving.trace(rng) if rng.random() < 0.5 else rng.choice(KINDS)(rng)
        if not is_contested and rng.random() < 0.5:
            lines = crowded(lines, rng.choice([3, 4, 5, 6, 8]))
        script = script_of("\n".join(lines).encode())
        operations = [operations_in(program) for program in script.programs]
        if sum(count > 0 for count in operations) < 2 or sum(operations) > MOST_OPERATIONS:
            continue
        if not is_contested:
            given = options_of(rng, given)
        if "every" not in given:               # there a delay is as many collections
            lines = delayed(rng, lines)
        pairs = list(given.items())
        rng.shuffle(pairs)
        words = ["run", *itertools.chain.from_iterable((f"--{name}", str(value)) for name, value in pairs), "--table"]
        return words, "\n".join(lines).encode() + b"\n"
