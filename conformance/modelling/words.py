"""The words of a call, and what they mean."""
from dataclasses import dataclass, replace
from typing import NamedTuple, Optional

from modelling.traces import LARGEST_NUMBER, number_of


@dataclass
class Step:
    """A run of a trace, in turns or by real threads."""
    heap: int = 65_536
    forward: int = 1_024
    disk: int = 16_777_216
    mark: int = 50
    move: int = 80
    every: Optional[int] = None
    quiet: bool = False
    table: bool = False
    log: bool = False
    is_real: bool = False


class Gen(NamedTuple):
    """A trace that is made from a number."""
    kind: str
    seed: int
    size: int
    threads: int


STEP_RANGES = {"heap": (16, 4_194_304), "forward": (1, 65_536), "disk": (2, 268_435_456), "mark": (0, 100), "move": (0, 100),
               "every": (1, 1_048_576)}
GEN_RANGES = {"seed": (0, LARGEST_NUMBER), "size": (1, 100_000), "threads": (1, 8)}
FLAGS = ("quiet", "table", "log")
REAL_FLAGS = ("quiet", "table")
KINDS = ("list", "queue", "table", "tree")


def meant(words):
    """What the words mean, or None where they mean nothing."""
    if words[:1] == ["step"]:
        return step_of(words[1:], FLAGS)
    if words[:1] == ["run"]:
        step = step_of(words[1:], REAL_FLAGS)
        return step and replace(step, is_real=True)
    return gen_of(words[1:]) if words[:1] == ["gen"] else None


def step_of(words, flags):
    given = given_by(words, STEP_RANGES, flags)
    given = given and numbers_in(given, STEP_RANGES)
    if given is None:
        return None
    step = Step(**given)
    return step if step.mark <= step.move else None


def gen_of(words):
    given = given_by(words, ("kind", *GEN_RANGES))
    if given is None or given.keys() != {"kind", *GEN_RANGES} or given["kind"] not in KINDS:
        return None
    given = numbers_in(given, GEN_RANGES)
    return None if given is None else Gen(**given)


def given_by(words, options, flags=()):
    """The text that stands for each option that is given, and True for each flag; None where a word is neither."""
    given, rest = {}, iter(words)
    for word in rest:
        name, sign, value = word.partition("=")
        key = name[2:]
        if not name.startswith("--") or key in given:
            return None
        if key in flags and not sign:
            given[key] = True
        elif key in options:
            given[key] = value if sign else next(rest, "")
        else:
            return None
    return given


def numbers_in(given, ranges):
    """The same with numbers in the place of texts; None where one is not in its range."""
    found = dict(given)
    for key in given.keys() & ranges.keys():
        number, (low, high) = number_of(given[key]), ranges[key]
        if number is None or not low <= number <= high:
            return None
        found[key] = number
    return found
