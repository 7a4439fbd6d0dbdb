"""What the program does with its words and its input."""
from itertools import islice

from modelling.disk import WordsInMemory
from modelling.output import DONE, READ_FAULT, TRACE, USAGE, lines_of, status_of, text
from modelling.running import Run
from modelling.traces import MOST_OPERATIONS, Refusal, script_of
from modelling.words import Gen, meant
from scripts import load


def answer(words, read, words_on_disk=None, say=None):
    """The status and the output for words and an input, which is read where it is wanted. The words of the disk are
    kept in memory where nothing else is given. Each thing that happens is told to `say`, where it is given."""
    options = meant(words)
    if options is None:
        return USAGE, text(["error usage"])
    if isinstance(options, Gen):
        return gen(options)
    try:
        data = read()
    except OSError:
        return READ_FAULT, text(["error read"])
    return step(options, data, words_on_disk or WordsInMemory(), say)


def step(options, data, words_on_disk, say):
    """The status and the output of a run over these bytes."""
    try:
        script = script_of(data)
    except Refusal as refusal:
        return TRACE, text([f"error trace {refusal.line} {refusal.reason}"])
    report = Run(script, options, words_on_disk, say).report()
    return status_of(report), text(lines_of(report, options))


def gen(options):
    """The status and the output of a trace that is made."""
    lines_beside = 3 + 2 * options.threads
    lines = list(islice(load("generator").lines_of(*options), lines_beside + MOST_OPERATIONS + 1))
    if len(lines) > lines_beside + MOST_OPERATIONS:
        return USAGE, text(["error usage"])
    return DONE, text(lines)
