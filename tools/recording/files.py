"""The three files of a recording: their names, and what stands in NAME.kinds."""
from recording.trace import RECORDER

ENDINGS = ".trace", ".kinds", ".expect"


def names_of(name):
    return [name + ending for ending in ENDINGS]


def encoded(pieces):
    """A text as bytes, piece by piece."""
    return (piece.encode("utf-8", "backslashreplace") for piece in pieces)


def plain(text):
    """A name as a field of a line of NAME.kinds."""
    return "-" if text is None else text if text.isprintable() else "".join(c if c.isprintable() else "?" for c in text)


def count(number):
    return "-" if number is None else number


def kinds(trace, program, window, first_use):
    """The lines of NAME.kinds; --help says what they are."""
    yield f"kinds 1\nprogram {plain(program)}\nwindow {window}\nfirst {first_use}\n"
    yield f"last {trace.uses}\noperations {trace.operations}\n"
    for identity, row in enumerate(trace.rows, 1):
        if row.head is None:
            yield (f"object\t{identity}\t{row.slots}\t{row.numbers}\t{row.made}\t{count(row.used)}\t{count(row.gone)}\t"
                   f"{plain(row.kind)}\t{plain(row.place)}\t{plain(row.held and str(row.held))}\n")
        else:
            yield f"cell\t{identity}\t{row.slots}\t{row.numbers}\t{row.made}\t{row.head}\t{count(row.gone)}\n"


def objects_in(trace):
    """How many objects of the program were made."""
    return sum(row.head is None and row.kind != RECORDER for row in trace.rows)
