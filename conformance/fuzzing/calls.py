"""Random calls of the program: words, and the bytes of an input."""
import itertools
import random

from fuzzing import moving
from fuzzing.damage import AFTER, CHANGES, SELDOM
from fuzzing.traces import KINDS
from modelling.traces import LARGEST_INPUT, Refusal, operations_in, script_of
from modelling.words import FLAGS, STEP_RANGES, Step, meant

MOST_OPERATIONS = 3_000   # a trace with more is not run: the model is slow
MADE = ("list", "queue", "table", "tree")


# ---------------------------------------------------------------- words


def ordered_words(rng, given):
    """The words of a call, the options in any order."""
    if given.get("mark", 50) > given.get("move", 80):
        given["move"] = 100
    pairs = list(given.items())
    rng.shuffle(pairs)
    return ["step", *itertools.chain.from_iterable((f"--{name}", str(value)) for name, value in pairs)]


def with_sizes(rng, given):
    """The same options, now and then with a number of forwarding words and of words of the disk."""
    ranges = {name: STEP_RANGES[name] for name in ("forward", "disk")}
    sizes = {name: rng.choice([low, high, rng.randint(low, high)]) for name, (low, high) in ranges.items()}
    return {**given, **{name: size for name, size in sizes.items() if rng.random() < 0.1}}


def with_flags(rng, words):
    """The same words with flags among them: the table and the log tell most, a sum of replies least."""
    flags = [f"--{flag}" for flag, part in zip(FLAGS, (0.15, 0.7, 0.5)) if rng.random() < part]
    rng.shuffle(flags)
    return words[:1] + flags + words[1:] if rng.random() < 0.5 else words + flags


def wrong_words(rng, words):
    """The words of a call with one of them changed."""
    words = list(words)
    words += rng.choice([[], ["--heap", "64"], ["--every", "2"], ["--mark", "0", "--move", "0"]])
    change = rng.randrange(6)
    at = rng.randrange(len(words))
    texts = ["--forward", "--disk", "--quiet", "--table", "--log"]
    names = ["--heap", "--mark", "--move", "--every", *texts]
    if change == 0:
        words[at] = rng.choice(["step", "--help", "-h", "--", "--heap", "--mark", "--move", "--every", "--Heap", "--disk", "",
                                "--heap=64", "16", "heap", "run", *texts])
    elif change == 1:
        words.pop(at)
    elif change == 2:
        words.insert(at, rng.choice(["--heap", "16", "--every", "--", "step", *texts]))
    else:
        name = rng.choice(names)
        words += [name, rng.choice(["15", "16", "17", "0", "1", "49", "50", "51", "79", "80", "81", "99", "100", "101", "1048576", "1048577",
                                    "4194304", "4194305", "4294967297", "18446744073709551616", "016", "+16", "-1", "1e3",
                                    "", " 16", "16 ", "\u0661", "2", "65536", "65537", "268435456", "268435457"])]
    return words


def with_border(rng, words):
    """The words of a call with one option at a border of its range, or right past it."""
    name = rng.choice(list(STEP_RANGES))
    low, high = STEP_RANGES[name]
    flag, value = f"--{name}", str(rng.choice([low - 1, low, high, high + 1]))
    if flag not in words:
        return [*words, flag, value]
    at = words.index(flag) + 1
    return [*words[:at], value, *words[at + 1:]]


def words_of_gen(rng):
    """The words of a trace that is made, at times with one of them wrong."""
    kind, threads = rng.choice(MADE), rng.choice([1, 1, 2, 3, 8, rng.randint(0, 9)])
    seed = rng.choice([0, 1, 7, 2**64 - 1, 2**64 - 2, rng.randrange(2**64), rng.randrange(2**64 + 9)])
    size = rng.choice([1, 2, 7, 8, 15, 16, 17, 62, 63, rng.randint(0, 300)])
    pairs = [["--kind", kind], ["--seed", str(seed)], ["--size", str(size)], ["--threads", str(threads)]]
    rng.shuffle(pairs)
    pairs = ["=".join(pair) if rng.random() < 0.2 else pair for pair in pairs]
    words = ["gen", *itertools.chain.from_iterable([pair] if isinstance(pair, str) else pair for pair in pairs)]
    if rng.random() < 0.3:
        at = rng.randrange(len(words))
        words[at:at + rng.choice([0, 1, 1, 2])] = rng.choice([[], ["0"], ["--size", "5"], ["List"], ["step"], ["--heap", "16"], ["--"]])
    return words


# ---------------------------------------------------------------- words and bytes


def loosened(rng, lines):
    """The same trace with skipped lines and more spaces."""
    out = []
    for line in lines:
        if rng.random() < 0.1:
            out.append(rng.choice(["", "   ", "# a comment", "#", "  # thread 0 \x7e"]))
        out.append(rng.choice([line, " " + line, line + "  ", line.replace(" ", "   ")]) if rng.random() < 0.2 else line)
    return out


def sound(rng):
    """A trace that is one: its words and its bytes. In half of them objects are to move to the disk and come back."""
    if rng.random() < 0.5:
        lines, given = moving.trace(rng)
    else:
        lines, given = rng.choice(KINDS)(rng)
        given = with_sizes(rng, given)
    if rng.random() < 0.15:
        lines = loosened(rng, lines)
    data = "\n".join(lines).encode("latin-1")
    words, data = ordered_words(rng, given), data if rng.random() < 0.05 else data + b"\n"
    return with_flags(rng, words), data


def damaged(rng):
    """A trace with a line or two changed, or a call with a word changed: its words and its bytes."""
    words, data = sound(rng)
    if rng.random() < 0.15:
        return wrong_words(rng, words), data
    lines = data.decode("latin-1").split("\n")
    last = lines.pop()
    if rng.random() < 0.04:
        rng.choice(SELDOM)(rng, lines, 0)
    else:
        for _ in range(rng.choice([1, 1, 1, 2, 3])):
            if lines:
                rng.choice(CHANGES)(rng, lines, rng.randrange(len(lines)))
    data = "".join(line + "\n" for line in lines) + last
    data = data[:-1 if rng.random() < 0.05 else None].encode("utf-8" if rng.random() < 0.1 else "latin-1")
    data = changed_after(rng, data) if rng.random() < 0.2 else data
    return with_border(rng, words) if rng.random() < 0.1 else words, data


def changed_after(rng, data):
    """The same bytes with one line more that is changed, in two of its fields or in its spaces too."""
    lines = data.decode("latin-1").split("\n")
    rng.choice(AFTER)(rng, lines, rng.randrange(len(lines)))
    return "\n".join(lines).encode("latin-1")


def made(rng):
    """A call of `gen`, which reads nothing."""
    return words_of_gen(rng), b""


CALLS = {"traces": [sound], "damaged": [damaged], "both": [sound, damaged], "gen": [made]}


def script_in(data):
    """What the bytes say, or None where they are no trace."""
    if len(data) > LARGEST_INPUT:
        return None
    try:
        return script_of(data)
    except Refusal:
        return None


def is_small(data):
    """Whether the model can run this, or refuses it, in a short time."""
    if b"repeat" not in data and data.count(b"\n") - data.count(b"\norder ") < MOST_OPERATIONS:
        return True            # each operation has a line of its own
    script = script_in(data)
    return script is None or sum(map(operations_in, script.programs)) <= MOST_OPERATIONS


def by_real_threads(words):
    """The same call by `run`, which has no log."""
    return ["run", *(word for word in words[1:] if word != "--log")]


def is_fixed(words, data):
    """Whether there is one right answer: by `run`, threads beside each other can be answered in many ways."""
    options = meant(words)
    if not isinstance(options, Step) or not options.is_real:
        return True
    script = script_in(data)
    return script is None or script.threads == 1


def call_of(seed, number, kind):
    """Call number NUMBER of a seed: its words and its bytes. One in four of `step` is made by `run`, where that is to say the
    same."""
    for turn in itertools.count():
        rng = random.Random(f"{seed} {number} {kind} {turn}")
        words, data = CALLS[kind][number % len(CALLS[kind])](rng)
        if not is_small(data) or not is_fixed(words, data):
            continue
        if number // 2 % 4 == 3 and words[:1] == ["step"] and is_fixed(by_real_threads(words), data):
            words = by_real_threads(words)
        return words, data
