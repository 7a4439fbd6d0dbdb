"""Changes of traces, most of which make them none."""
from fuzzing.traces import Mood

NUMBERS = ["0", "1", "7", "8", "9", "15", "16", "61", "62", "63", "64", "65", "65536", "65537", "1048575", "1048576",
           "1048577", "16777216", "4294967295", "4294967296", "9223372036854775808", "18446744073709551615",
           "18446744073709551616", "18446744073709551625", "99999999999999999999", "100000000000000000000",
           "340282366920938463463374607431768211456", "00", "01", "+1", "-1", "1x", "x", "0x1", "1.0", "1_0", "\u00b2"]
WORDS = ["new", "load", "store", "get", "put", "gload", "gstore", "same", "copy", "drop", "collect", "repeat", "end", "done",
         "order", "thread", "melt", "threads", "globals", "New", "equal", "news", "ne", "#", "#x"]


def change_number(rng, lines, at):
    fields = lines[at].split()
    if len(fields) > 1:
        fields[rng.randrange(1, len(fields))] = rng.choice(NUMBERS)
        lines[at] = " ".join(fields)


def change_word(rng, lines, at):
    fields = lines[at].split() or [""]
    fields[0] = rng.choice(WORDS)
    lines[at] = " ".join(fields)


def change_fields(rng, lines, at):
    fields = lines[at].split()
    if rng.random() < 0.5 and fields:
        fields.pop(rng.randrange(len(fields)))
    else:
        fields.insert(rng.randint(0, len(fields)), rng.choice(NUMBERS + ["# it", "#"]))
    lines[at] = " ".join(fields)


def change_byte(rng, lines, at):
    byte = chr(rng.choice([0, 9, 10, 11, 13, 31, 32, 35, 48, 57, 126, 127, 128, 160, 255, rng.randrange(256)]))
    where = rng.randint(0, len(lines[at]))
    lines[at] = lines[at][:where] + byte + lines[at][where + rng.randint(0, 1):]


def drop_line(rng, lines, at):
    del lines[at]


def drop_rest(rng, lines, at):
    del lines[at:]


def double_line(rng, lines, at):
    lines.insert(rng.randint(0, len(lines)), lines[at])


def swap_lines(rng, lines, at):
    other = rng.randrange(len(lines))
    lines[at], lines[other] = lines[other], lines[at]


def put_line(rng, lines, at):
    mood = Mood(rng)
    mood.globals = 2
    lines.insert(at, rng.choice([mood.operation(), "end", "done", "repeat 2", "thread 0", "thread 1", "order 0 1", "melt 1",
                                 "threads 1", "globals 0", "end 1", "done 1", "collect 1", "\tdone", "done\r"]))


def put_blocks(rng, lines, at):
    """Blocks around one operation, of about the depth and the count that are allowed."""
    depth = rng.randint(1, 6)
    factors = rng.choice([[2] * depth, [1024, 1024], [1048576], [1048575], [524288, 2], [1048576] * depth])
    inner = rng.choice([["drop 0"], ["drop 0"], ["drop 0"], [], ["# nothing"]])
    lines[at:at] = [f"repeat {factor}" for factor in factors] + inner + ["end"] * len(factors)


def wrong_blocks(rng, lines, at):
    """The largest programs, and one operation more, before a line that is bad anyway."""
    blocks = rng.choice([["repeat 1048576", "drop 0", "end"], ["repeat 1024", "repeat 1024", "drop 0", "end", "end"],
                         ["repeat 1048575", "drop 0", "end", "drop 0"]])
    lines[:] = ["melt 1", "threads 2", "globals 0", "thread 0", *blocks, *rng.choice([[], ["drop 0"]]), "done", "thread 1",
                *rng.choice([[], ["drop 0"]]), *rng.choice([[], ["done 1"], ["bad"], ["done", "bad"]])]


def many_orders(rng, lines, at):
    """As many lines of orders as there may be, or one more, which may have another fault too."""
    here = sum(line.startswith("order ") for line in lines)
    lines[3:3] = ["order 0 1"] * (65_536 - here + rng.choice([0, 1, 1]))
    if rng.random() < 0.3:
        last = max(index for index, line in enumerate(lines[:3 + 65_540]) if line.startswith("order "))
        lines[last] = rng.choice(["order 0 x", "order 9 1", "order 0", "order 0 0"])


def long_input(rng, lines, at):
    """As many bytes as a trace may have, or one more, in one comment."""
    size = sum(len(line) + 1 for line in lines)
    lines.append("#" + "x" * (16_777_216 - size - 2 + rng.randint(-1, 2)))


def two_numbers(rng, lines, at):
    """Two numbers of a line, of which both may be wrong: it is told of one."""
    fields = lines[at].split()
    for place in rng.sample(range(1, len(fields)), min(2, len(fields) - 1)) if fields else []:
        fields[place] = rng.choice(NUMBERS)
    lines[at] = " ".join(fields)


def last_number(rng, lines, at):
    """One of the last numbers that a field may have, or one past them, in a line with wide spaces. It is one of a part of
    an object, where there is one."""
    parts = [place for place, line in enumerate(lines) if line.split()[:1] in (["load"], ["store"], ["get"], ["put"])]
    at = rng.choice(parts) if parts else at
    fields = lines[at].split()
    if len(fields) > 1:
        fields[rng.randrange(1, len(fields))] = rng.choice(["15", "62", "63", "63", "64"])
        lines[at] = "  ".join(fields)


CHANGES = [change_number, change_number, change_number, change_word, change_word, change_fields, change_fields, change_byte,
           change_byte, drop_line, drop_line, drop_rest, double_line, swap_lines, put_line, put_line, put_blocks]
SELDOM = [*[wrong_blocks] * 5, *[many_orders] * 6, long_input]
AFTER = [two_numbers, last_number]   # in a trace that was changed otherwise, or not
