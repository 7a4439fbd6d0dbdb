"""Wrong programs of threads, and what finds each."""
import itertools
import multiprocessing
import pathlib
import random
import tempfile
import time

from fuzzing.bodies import HERE, patched, read_body
from fuzzing.calls import by_real_threads, call_of, is_fixed
from fuzzing.copies import NoBuild, add_program, new_build, program_of, shaken, tests_of, with_tests
from modelling.words import Step, meant
from scripts import load

BODIES = HERE / "bodies/threads"
TEST_CRATES = ("melt_pool_tests", "melt_epoch_tests")
SHAKEN = 1_000            # added to the number of a wrong program it is that of the same one, shaken
TRUE = 999                # the number of the program as it is, and with SHAKEN of the shaken one
ALONE = 100               # traces of one thread on which a wrong program is compared with the model
LONG = 200                # operations of one that collects nothing
SECONDS = 60              # of one test
BESIDE = 8                # runs that go on at once, so that threads are held up


def long_call():
    """A trace of one thread that is never short of anything, so that nothing is collected."""
    lines = ["melt 1", "threads 1", "globals 0", "thread 0", "new 0 0 1", *(f"put 0 0 {value}" for value in range(LONG - 1)), "done", ""]
    return ["run", "--table"], "\n".join(lines).encode()


def alone_calls(seed):
    """Calls of `run` of one thread, which are to be answered as those of `step`."""
    yield long_call()
    for number in itertools.count():
        words, data = call_of(seed, number, "traces")
        if isinstance(meant(words), Step) and is_fixed(by_real_threads(words), data):
            yield by_real_threads(words), data


def first_alone(program, seed, count):
    """The number of the first call of one thread by which a program differs from the model, from 1, or 0."""
    fuzz = load("fuzz")
    tested = fuzz.Tested(program)
    for number, (words, data) in enumerate(itertools.islice(alone_calls(seed), count), 1):
        if tested.differs(words, data):
            return number
    return 0


def first_judged(pool, program, seed, count):
    """The number of the first run of many threads that is judged wrong, from 1, and what is wrong with it; or 0."""
    threads = load("threads")
    jobs = ((program, seed, number) for number in range(count))
    for some in iter(lambda: list(itertools.islice(jobs, 2 * BESIDE)), []):
        for judged in pool.map(threads.try_one, some, chunksize=1):
            if judged.wrong:
                return judged.number + 1, judged.wrong.strip().splitlines()[0]
    return 0, ""


class Found:
    """What found a wrong program."""

    def __init__(self):
        self.tests, self.by = {}, {}

    def text(self):
        parts = [f"{name}: {value}" for name, value in self.by.items()]
        return "; ".join(parts + [f"{name}: {', '.join(sorted(tests))}" for name, tests in self.tests.items()])

    def is_found(self):
        return bool(self.tests or self.by)


def built_programs(folder, bodies):
    """Adds each wrong program, as it is and shaken, and the true one; builds all of them as one. The program, and the crates of each."""
    build, names = new_build(folder), {}
    for number, texts in {**bodies, TRUE: {}}.items():
        names[number] = add_program(build, number, texts) if texts else []
        changed = shaken(random.Random(number))(texts)
        names[number + SHAKEN] = add_program(build, number + SHAKEN, changed)
    target = folder / "program"
    program_of(build, names, target)
    return build, str(target), names


def judge_program(pool, program, number, given, found):
    """Runs a program, as it is and shaken, until it is found."""
    threads = load("threads")
    alone = first_alone([program, str(number)], given.seed, ALONE)
    if alone:
        found.by["one thread against the model"] = f"trace {alone}"
    for name, at in (("runs", number), ("shaken runs", number + SHAKEN)):
        run, wrong = first_judged(pool, [program, str(at)], given.seed, given.count)
        if run:
            found.by[name] = f"run {run} ({wrong})"
    if not found.by and not threads.runs_until_two_differ([program, str(number)], "run"):
        found.by["the race of two threads"] = f"{threads.RACES} runs were alike"


def judge_tests(build, names, founds, shift, by):
    """Runs the tests over each wrong program, whose number is higher by so much."""
    for crate in TEST_CRATES:
        numbers = {number + shift: names[number + shift] for number in (*founds, TRUE)}
        with_tests(build, crate, numbers)
        ended, text = tests_of(build, crate, SECONDS)
        wrong = [name for (module, name), how in ended.items() if module == f"w{TRUE + shift}" and how != "ok"]
        if wrong:
            print(f"{crate}: tests of the true program failed: {', '.join(wrong)}\n{text[-2000:]}", flush=True)
        for (module, name), how in ended.items():
            found = founds.get(int(module[1:]) - shift)
            if found and how != "ok" and name not in wrong:
                found.tests.setdefault(by, []).append(name.rpartition("::")[2])


def try_races(names, given):
    """Tries the wrong programs of threads; whether one was not found or could not be tried."""
    paths = [BODIES / f"{name}.body" for name in names] or sorted(BODIES.glob("*.body"))
    read = {number: read_body(path) for number, path in enumerate(paths, 1)}
    patches = {number: patched(changes) for number, (_, _, changes) in read.items()}
    wrong = {number: text for number, (_, text) in patches.items() if text}
    for number, text in wrong.items():
        print(f"{paths[number - 1].stem}: no longer applies: {text}")
    if given.patches:
        print(f"{len(paths)} wrong programs of threads, {len(paths) - len(wrong)} apply")
    if wrong or given.patches:
        return bool(wrong)
    founds, begun = {number: Found() for number in read}, time.monotonic()
    with tempfile.TemporaryDirectory() as folder:
        try:
            build, program, crates = built_programs(pathlib.Path(folder), {number: texts for number, (texts, _) in patches.items()})
            print(f"built in {time.monotonic() - begun:.0f} seconds", flush=True)
            with multiprocessing.Pool(BESIDE) as pool:
                for number, found in founds.items():
                    judge_program(pool, program, number, given, found)
                    print(f"{paths[number - 1].stem}: {found.text() or 'no run'}", flush=True)
                run, said = first_judged(pool, [program, str(TRUE + SHAKEN)], given.seed, given.count)
                print(f"the true program, shaken: {f'run {run} is WRONG: {said}' if run else f'none of {given.count} runs is wrong'}", flush=True)
            judge_tests(build, crates, founds, 0, "tests")
            left = {number: found for number, found in founds.items() if not found.is_found()}
            judge_tests(build, crates, left, SHAKEN, "shaken tests")
        except NoBuild as error:
            print(f"does not build: {error}")
            return True
    return report(paths, read, founds) or bool(run)


def report(paths, read, founds):
    """Prints what found each; whether one was not found."""
    lost = 0
    for number, found in founds.items():
        _, unseen, _ = read[number]
        lost += not found.is_found() and not unseen
        text = found.text() or (f"not found, as is known: {unseen}" if unseen else "NOT FOUND")
        print(f"{paths[number - 1].stem}: {text}")
    print(f"{len(founds)} wrong programs of threads: {sum(found.is_found() for found in founds.values())} found, {lost} lost")
    return bool(lost)
