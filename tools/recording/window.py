"""A window as operations: what is new is made, what changed is stored, what was used is walked to and read back.

Before anything changes, the objects that changed, and those that something will lead to, are walked to and put on a shelf: later
their ways may be gone. Then each that changed is taken from there and stored into. A new object is made where the first reference
to it is stored, and filled at once, as deep as registers go, so most objects never come to the shelf. Last, what was used and did not
pass a register on the way is walked to. Each used object is read back once in the window.
"""
from recording import walks
from recording.forms import MOST, WIDTH, Cell, Form, first_shape, next_slots, place_above
from recording.roles import is_fixed, kind_of, place_of
from recording.shelf import Shelf

# Registers: an object beside those under way; a cell that is no head; a new cell; the first and the last for objects under way.
BESIDE, INNER, MADE, BOTTOM, LAST = 1, 2, 3, 4, 15
TOPS = "(variables of modules)", "(variables of frames)"


class Window:
    def __init__(self, graph, change, used, lines):
        self.graph, self.change, self.used, self.lines = graph, change, used, lines
        self.say = lines.lines.append
        self.shelf = Shelf(lines)
        self.read = set()
        self.wanted = {}           # how often each node is still to be stored
        self.under_way = {}        # nodes in registers, while they are filled
        self.later = []            # new nodes that found no register to be filled in
        self.inner = None          # the cell in INNER

    def write(self):
        self.count_wanted()
        self.collect()
        for node, kids in self.change.changed.items():
            self.take_up(node)
            self.fill(node, BOTTOM, *kids)
        while self.later:
            node = self.later.pop()
            self.shelf.get(node, BOTTOM)
            self.fill(node, BOTTOM, node.kids)
        self.shelf.clear()
        self.end_what_is_gone()
        self.walk({node: None for node in self.used if node not in self.read}, lambda node: node.parent, self.read_back)
        for register in range(LAST + 1):
            self.say(f"drop {register}")

    def count_wanted(self):
        wanted = self.wanted
        for kids in (*(more for more, _ in self.change.changed.values()), *(node.kids for node in self.change.new)):
            for kid in kids:
                wanted[kid] = wanted.get(kid, 0) + 1

    # ------------------------------------------------------------ walks

    def collect(self):
        """Puts on the shelf what is there already and will be needed."""
        tops = self.graph.tops
        needed = {node: None for node in (*self.change.changed, *self.wanted) if node.form and node not in tops}

        def visit(node, register):
            if node in needed:
                self.shelf.put(node, register)
            self.read_back(node, register)
        before = self.change.before
        self.walk(needed, lambda node: before.get(node, node.parent), visit)

    def walk(self, wanted, parent_of, visit):
        """Goes to each wanted node by what is stored now."""
        tops = [top for top in self.graph.tops if top.form]
        tree = walks.ways_to(wanted, tops, lambda node: node.form.places, parent_of)
        for top in tops:
            if top in tree:
                walks.go(tree, top, self.load, visit)

    def load(self, parent, source, node, register):
        if parent is None:
            self.say(f"gload {register} {self.graph.tops.index(node)}")
            return
        place = parent.form.places[node]
        if place >= WIDTH:
            for step in parent.form.cell_at(place).way():
                self.say(f"load {register} {source} {step}")
                source = register
        self.say(f"load {register} {source} {place % WIDTH}")

    def read_back(self, node, register):
        if node in self.used and node not in self.read:
            self.read.add(node)
            self.lines.read_back(register, node.form.head.identity)

    # ------------------------------------------------------------ what changes

    def take_up(self, node):
        """Loads a node that changed, or makes a top."""
        if node not in self.graph.tops:
            self.shelf.get(node, BOTTOM)
        elif node.form:
            self.say(f"gload {BOTTOM} {self.graph.tops.index(node)}")
        else:
            self.make(node, BOTTOM)
            self.say(f"gstore {self.graph.tops.index(node)} {BOTTOM}")

    def make(self, node, register):
        slots, numbers = first_shape(len(node.kids), node.words(), is_fixed(node.thing))
        kind, place = self.told_of(node)
        identity = self.lines.new(register, slots, numbers, kind, place=place)
        node.form = Form(Cell(identity, slots, numbers))
        self.read_back(node, register)

    def told_of(self, node):
        """The kind of an object, and where the program made it, if that is known."""
        if node in self.graph.tops:
            return TOPS[self.graph.tops.index(node)], None
        return kind_of(node.thing), place_of(node.thing)

    def fill(self, node, register, more, fewer=()):
        """Stores into the node in this register: it leads to more nodes now, and to others no more."""
        form, left = node.form, list(fewer)
        self.under_way[node] = register
        for kid in more:
            if left:
                place = form.places[left[-1]]
                form.take(place)
                left.pop()
            else:
                place = self.free_place(form, register)
            self.lead_to(kid, form, register, place)
        for kid in left:
            self.empty(form, register, form.places[kid])
        self.fit_words(node, register)
        del self.under_way[node]

    def lead_to(self, kid, form, register, place):
        """Stores a reference to a node into a place, and makes the node if it is new."""
        form.put(place, kid)
        self.wanted[kid] -= 1
        if kid.form is None:
            if register == LAST:
                self.make(kid, BESIDE)
                self.store(form, register, place, BESIDE)
                self.shelf.put(kid, BESIDE)
                self.later.append(kid)
                return
            self.make(kid, register + 1)
            self.store(form, register, place, register + 1)
            self.fill(kid, register + 1, kid.kids)
            if self.wanted[kid]:
                self.shelf.put(kid, register + 1)
        elif kid in self.under_way:
            self.store(form, register, place, self.under_way[kid])
        else:
            self.shelf.get(kid, BESIDE)
            self.store(form, register, place, BESIDE)

    def store(self, form, register, place, source):
        self.say(f"store {self.come_to(form, register, place)} {place % WIDTH} {source}")

    def come_to(self, form, register, place):
        """The register that holds the cell of this place, of the node in `register`."""
        if place < WIDTH:
            return register
        cell = form.cell_at(place)
        if self.inner is not cell:
            source = register
            for step in cell.way():
                self.say(f"load {INNER} {source} {step}")
                source = INNER
            self.inner = cell
        return INNER

    def empty(self, form, register, place):
        """Takes what stands in a place, and the cell that has nothing left by that."""
        form.take(place)
        self.say(f"drop {BESIDE}")
        self.store(form, register, place, BESIDE)
        cell = form.cell_at(place)
        form.free.append(place)
        if not cell.taken and cell.above:
            above = place_above(cell)
            form.remove(cell)
            self.lines.end(cell.identity)
            self.empty(form, register, above)

    def free_place(self, form, register):
        """A place that is empty. Where there is none, a new cell takes what one has, and has more."""
        if not form.free:
            place = form.give_way()
            slots = next_slots(form)
            source = self.come_to(form, register, place)
            cell = Cell(self.lines.new(MADE, slots, 1, head=form.head.identity), slots, 1)
            self.say(f"load {BESIDE} {source} {place % WIDTH}")
            self.say(f"store {MADE} 0 {BESIDE}")
            self.say(f"store {source} {place % WIDTH} {MADE}")
            content = form.take(place)
            form.add(cell)
            form.put(form.free.pop(), content)
            form.put(place, cell)
        return form.free.pop()

    # ------------------------------------------------------------ words

    def fit_words(self, node, register):
        """Adds number words where the object has outgrown its cells by a quarter, and takes them away where half of them do."""
        form, words = node.form, node.words()
        spare = MOST if is_fixed(node.thing) else min(MOST, max(8, form.words // 4))
        while words - form.words > spare:
            place = self.free_place(form, register)
            numbers = min(MOST, max(1, words - form.words - 2))
            cell = Cell(self.lines.new(MADE, 0, numbers, head=form.head.identity), 0, numbers)
            form.add(cell)
            form.put(place, cell)
            self.store(form, register, place, MADE)
        while form.pads and words < form.words // 2:
            cell = form.pads[-1]
            form.remove(cell)
            self.lines.end(cell.identity)
            self.empty(form, register, place_above(cell))

    def end_what_is_gone(self):
        for node in self.change.gone:
            for cell in node.form.all_cells() if node.form else ():
                self.lines.end(cell.identity)
