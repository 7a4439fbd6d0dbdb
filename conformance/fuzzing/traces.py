"""Random traces, each with options under which it is to be run."""


class Mood:
    """What is usual in one trace: few registers and small objects make more happen than all of them."""

    def __init__(self, rng):
        self.rng = rng
        self.threads = rng.choice([1, 1, 2, 2, 2, 3, 3, 4, 5, 8])
        self.globals = rng.choice([0, 1, 1, 2, 2, 3, 64])
        self.registers = rng.choice([1, 2, 3, 3, 4, 16])
        self.slots = rng.choice([0, 1, 2, 2, 3])
        self.numbers = rng.choice([0, 1, 1, 2])
        self.large = rng.random() < 0.1
        self.length = rng.choice([3, 8, 15, 25])
        self.blocks = rng.choice([0, 0, 0.05, 0.15])
        self.weights = {
            "new": rng.choice([3, 6, 10]), "load": rng.choice([2, 5]), "store": rng.choice([2, 5]), "get": 2, "put": 2,
            "gload": rng.choice([2, 5]), "gstore": rng.choice([2, 5]), "same": 2, "copy": 1, "drop": rng.choice([0.3, 2]),
            "collect": rng.choice([0, 0.5, 2]),
        }

    def register(self):
        return self.rng.randrange(self.registers)

    def global_(self):
        return self.rng.randrange(self.globals)

    def slot(self):
        return self.rng.randint(0, max(self.slots, 1)) if self.rng.random() < 0.95 else self.rng.randint(0, 63)

    def number(self):
        return self.rng.randint(0, max(self.numbers, 1)) if self.rng.random() < 0.95 else self.rng.randint(0, 63)

    def value(self):
        return self.rng.choice([0, 1, 7, 2**32, 2**63, 2**64 - 1, self.rng.randrange(2**64), self.rng.randrange(1000)])

    def shape(self):
        if self.large and self.rng.random() < 0.3:
            return self.rng.randint(0, 62), self.rng.randint(0, 62)
        if self.rng.random() < 0.02:
            return self.rng.choice([0, 62]), self.rng.choice([0, 62])
        return self.rng.randint(0, self.slots), self.rng.randint(0, self.numbers)

    def operation(self):
        words = [word for word in self.weights if self.globals or word not in ("gload", "gstore")]
        word = self.rng.choices(words, [self.weights[one] for one in words])[0]
        r, s = self.register(), self.register()
        fields = {
            "new": lambda: (r, *self.shape()), "load": lambda: (r, s, self.slot()), "store": lambda: (s, self.slot(), r),
            "get": lambda: (s, self.number()), "put": lambda: (s, self.number(), self.value()),
            "gload": lambda: (r, self.global_()), "gstore": lambda: (self.global_(), r), "same": lambda: (r, s),
            "copy": lambda: (r, s), "drop": lambda: (r,), "collect": lambda: (),
        }[word]()
        return " ".join([word, *map(str, fields)])


def lines_of_program(mood, length, depth=0):
    """The lines of a program, with blocks."""
    rng, lines = mood.rng, []
    while length > 0:
        if depth < 4 and rng.random() < mood.blocks:
            inner = rng.randint(1, 4)
            lines += [f"repeat {rng.choice([1, 2, 2, 3, 5])}", *lines_of_program(mood, inner, depth + 1), "end"]
            length -= inner
        else:
            operation = mood.operation()
            lines.append(operation)
            word, *fields = operation.split()
            if word == "new" and fields[2] != "0" and rng.random() < 0.5:
                lines.append(f"put {fields[0]} 0 {rng.randrange(1000)}")
            length -= 1
    return lines


def probes(mood):
    """Operations whose replies tell what globals and registers hold."""
    lines = []
    for g in range(min(mood.globals, 3)):
        r = mood.register()
        lines += [f"gload {r} {g}", f"get {r} 0", f"load {mood.register()} {r} 0", f"same 0 {r}"]
    for r in range(min(mood.registers, 3)):
        lines += [f"get {r} 0", f"same {r} {mood.register()}"]
    return lines


def orders(rng, threads, most):
    size = rng.choice([1, 3, 6, 12, 40])
    return [f"order {rng.randrange(threads)} {rng.randint(1, size)}" for _ in range(rng.randint(0, most))]


def whole(mood, order_lines, programs):
    """The lines of a trace."""
    lines = ["melt 1", f"threads {len(programs)}", f"globals {mood.globals}", *order_lines]
    for number, program in enumerate(programs):
        lines += [f"thread {number}", *program, "done"]
    return lines


def anything(rng):
    """Threads that do anything."""
    mood = Mood(rng)
    length = max(2, mood.length // (1 + mood.threads // 3))
    programs = [lines_of_program(mood, rng.randint(0, length)) for _ in range(mood.threads)]
    programs = [program + (probes(mood) if rng.random() < 0.6 else []) for program in programs]
    ordered = orders(rng, mood.threads, 12) if rng.random() < 0.7 else []
    return whole(mood, ordered, programs), options(rng)


def races(rng):
    """Threads that load and store in the same marked places, event by event."""
    mood = Mood(rng)
    mood.threads, mood.globals, mood.registers = rng.randint(2, 3), rng.randint(1, 2), 3
    mood.slots, mood.numbers, mood.blocks = 2, 1, 0
    first = ["new 0 2 1", "put 0 0 1", "new 1 2 1", "put 1 0 2", "store 0 0 1", "store 1 1 0", "gstore 0 0"]
    if rng.random() < 0.5:
        first.append("store 0 1 0")
    first += ["collect"] * rng.choice([1, 2, 2, 3])
    others = ["gload 0 0", "new 2 2 1", "put 2 0 3", *rng.choice([[], ["collect"], ["load 1 0 0"]])]
    words = ["load 1 0 0", "load 2 0 0", "gload 0 0", "gload 1 0", "gstore 0 0", "gstore 0 1", "gstore 0 2", "store 0 0 1",
             "store 0 0 2", "store 0 0 0", "get 0 0", "get 1 0", "same 1 2", "drop 1", "collect", "load 1 1 1"]
    setup = events_of(first) if rng.random() < 0.6 else rng.randint(1, events_of(first))
    ordered = [f"order 0 {setup}"] + orders(rng, mood.threads, 30)
    programs = [first if not number else list(others) for number in range(mood.threads)]
    programs = [program + [rng.choice(words) for _ in range(rng.randint(2, 10))] + probes(mood) for program in programs]
    given = options(rng)
    if rng.random() < 0.8:
        given.update(mark=0)
        given.pop("heap", None)
    return whole(mood, ordered, programs), given


def events_of(lines):
    """About how many events some operations are."""
    most = {"new": 7, "load": 3, "store": 3, "get": 3, "put": 3, "gload": 2, "gstore": 2}
    return sum(most.get(line.split()[0], 1) for line in lines)


def crowds(rng):
    """Threads that fill a heap that is too small for all of them."""
    mood = Mood(rng)
    mood.threads, mood.globals, mood.registers = rng.randint(2, 5), rng.randint(0, 2), rng.randint(1, 3)
    mood.blocks = 0
    words = rng.randint(4, 30)
    mood.weights.update(new=12, collect=rng.choice([0, 1, 3]), drop=rng.choice([0.2, 2]), load=1, store=2)

    def shape():
        p = rng.randint(0, min(62, words - 2))
        return p, max(0, rng.choice([0, words - 2 - p, words - 2 - p]))

    mood.shape = shape
    programs = [lines_of_program(mood, rng.randint(1, 9)) + (probes(mood) if rng.random() < 0.3 else [])
                for _ in range(mood.threads)]
    given = options(rng)
    given["heap"] = max(16, words * rng.randint(1, 5) + rng.randint(-2, 3))
    return whole(mood, orders(rng, mood.threads, 8) if rng.random() < 0.7 else [], programs), given


def told_apart(rng, thread, other):
    """Lines by which a load of global 0 by one thread meets a store by another only if its reference is marked."""
    return [f"order {thread} {rng.choice([2, 2, 2, 2, 1, 3])}", f"order {other} {rng.choice([2, 2, 2, 2, 3])}"]


def rooms(rng):
    """A thread that lacks room, and two that show by their turns what its collections did."""
    p, q = rng.choice([(0, 0), (0, 1), (1, 0)])
    first = [f"new 0 {p} {q}", "gstore 0 0"]
    heap = rng.randint(16, 24)
    most = heap - 4 - p - q
    waste = rng.randint(0, most - 2)
    large = rng.choice([most - 1, most, most, max(0, most - waste - 2), rng.randint(max(0, most - waste - 1), most)])
    second = [f"new 0 0 {waste}", *rng.choice([["drop 0"], ["drop 0"], []]), f"new 0 0 {min(large + 1, 62)}"]
    second += rng.choice([[], ["gstore 0 1"], ["gstore 0 1"], ["new 1 0 0"]])
    asks = rng.choice([[], [], ["collect"], ["collect"], ["collect"], ["collect", "collect"]])
    third = rng.choice([["gstore 0 1"], ["gstore 0 1"], ["gstore 0 1"], ["new 3 0 0", "gstore 0 3"]])
    ordered = [f"order 0 {events_exactly(first)}", f"order 1 {rng.choice([100, 100, events_exactly(second[:1])])}"]
    ordered += rng.choice([[], [], [], ["order 2 1"]])
    for _ in range(len(asks) + 1):
        ordered += ["order 0 1", *rng.choice([[], ["order 1 40"], ["order 1 1"]]), "order 2 1"]
    ordered += told_apart(rng, 0, rng.choice([1, 2])) + told_apart(rng, 0, rng.choice([1, 2]))
    programs = [[*first, *asks, "gload 1 0", "gload 2 0", "same 1 2"], second, third]
    given = {"heap": heap, **rng.choice([{"mark": 0}, {"mark": 0}, {"mark": 0}, {}, {"mark": rng.randint(0, 50)}])}
    if rng.random() < 0.2:
        given["every"] = rng.randint(1, 6)
    return whole(Globals(1), ordered, programs), given


def plans(rng):
    """Collections that plan the next from words at a part of the heap, or one word beside it, and a load that tells which."""
    heap = rng.choice([50, 100, 100, 200, 300])
    mark = rng.choice([10, 20, 30, 40, 50, rng.randint(4, 60)])
    live = max(2, mark * heap // 100 + rng.choice([-1, 0, 0, 0, 1]))
    kept = rng.choice(["global", "global", "register"])
    first, left, number = [], live - 2, 1
    while left > 0:
        words = min(left, rng.choice([64, 64, rng.randint(2, 64)]))
        words -= 1 if left - words == 1 else 0
        first.append(f"new {number} 0 {max(0, words - 2)}")
        left, number = left - max(2, words), number + 1
    first = first + ["new 0 0 0", "gstore 0 0"] + (["drop 0"] if kept == "global" else [])
    asks = ["collect"] * rng.choice([1, 2, 2, 3])
    if rng.random() < 0.4:
        asks += [f"drop {register}" for register in range(1, number)] + ["collect"] * rng.choice([1, 2])
    ordered = []
    for _ in range(asks.count("collect")):
        ordered += ["order 0 1000", "order 1 1"]
    ordered += told_apart(rng, 0, 1)
    programs = [[*first, *asks, "gload 14 0", "gload 15 0", "same 14 15"], ["gstore 0 5"]]
    given = {"heap": heap}
    if mark != 50 or rng.random() < 0.5:
        given["mark"] = mark
    if rng.random() < 0.3:
        given["move"] = rng.randint(mark, 100)
    return whole(Globals(1), ordered, programs), given


class Globals:
    """A mood that is nothing but a number of globals."""

    def __init__(self, number):
        self.globals = number


def events_exactly(lines):
    """How many events these operations are, where each finds its object and no mark."""
    total = 0
    for line in lines:
        word, *fields = line.split()
        total += int(fields[1]) + int(fields[2]) + 4 if word == "new" else {"gload": 2, "gstore": 2}.get(word, 1)
    return total


def bounds(rng):
    """One object, or a few, that fill a heap exactly or by a word too much."""
    mood = Mood(rng)
    mood.threads, mood.globals = rng.randint(1, 2), 1
    count, p, q = rng.randint(1, 4), rng.randint(0, 62), rng.randint(0, 62)
    size = count * (2 + p + q)
    program = []
    for number in range(count):
        program += [f"new {number} {p} {q}"] + ([f"put {number} {q - 1} 5", f"get {number} {q - 1}"] if q else [])
    program += [f"same 0 {count - 1}", f"get 0 {q}", f"load 9 0 {p}", "drop 0", f"new 0 {p} {q}", "new 9 0 0", "same 0 9"]
    given = options(rng)
    given["heap"] = max(16, size + rng.choice([-1, 0, 0, 1, 2, 3]))
    programs = [program if not number else lines_of_program(mood, 3) for number in range(mood.threads)]
    return whole(mood, orders(rng, mood.threads, 4), programs), given


def options(rng):
    """Options that may be given, as names and numbers."""
    given = {}
    if rng.random() < 0.75:
        given["heap"] = rng.choice([rng.randint(16, 40), rng.randint(16, 120), rng.randint(16, 300), 4096, 4_194_304])
    if rng.random() < 0.6:
        given["mark"] = rng.choice([0, 0, 1, rng.randint(0, 100), 100])
    if rng.random() < 0.4 or given.get("mark", 50) > 80:
        given["move"] = rng.choice([100, rng.randint(max(given.get("mark", 50), 0), 100), given.get("mark", 50)])
    if rng.random() < 0.4:
        given["every"] = rng.choice([1, 1, 2, 2, 3, 5, 7, 1_048_576])
    return given


KINDS = [anything, anything, races, races, crowds, crowds, rooms, rooms, plans, bounds]
