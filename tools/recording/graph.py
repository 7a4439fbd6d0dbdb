"""The objects of a program and what leads to what, as of the end of each window.

At the end of a window only the objects are looked into of which `gc.get_referents` answers other things than before, one by one
by identity. That is a question to all objects, but one that C code answers for many at once. What else there is follows: new
objects are behind references that are new, and objects that are gone are found by a tree of ways. The tree holds each object by
one reference. Where such a reference goes away, what hung from it is held by another one or is not reached any more, and nothing
else has to be looked at.

The full walk, which asks nothing of windows before, is the reference. Both have to find the same.
"""
import gc
import heapq
from collections import Counter
from itertools import count

from recording.roles import difference, identities, is_fixed, is_looked_at_singly, kind_of, own_words, parts, referents, same

SHOWN = 4                  # first steps of a way that are told, and last ones
VARIABLE = "(a variable of a frame)"
BLOCK = 64                 # objects that are asked for their references at once
FAR = 1 << 40              # how far frames are: a way from a module comes first, since it stays


class Differs(Exception):
    """The fast way found something else than the full walk."""


class Node:
    """An object of the program, or one of the two tops: the variables of modules, and those of frames."""
    __slots__ = ("thing", "found", "kids", "own", "more", "number", "holders", "parent", "depth", "block", "form")

    def __init__(self, thing, number):
        self.thing, self.number = thing, number
        self.found = []        # what it refers to; this keeps all of it alive, so that no identity is given again
        self.kids = {}         # the nodes that it leads to, and how often
        self.own = self.more = 0       # the words that it takes by itself, and for what it refers to
        self.holders = {}      # the nodes that lead to it
        self.parent = self.depth = None
        self.block = self.form = None

    def words(self):
        return self.own + self.more


class Block:
    """Some nodes, and the identities of all that they refer to."""
    __slots__ = ("nodes", "things", "found")

    def __init__(self, nodes):
        self.nodes = nodes
        self.things = [node.thing for node in nodes]
        self.found = identities(tuple([other for node in nodes for other in node.found]))
        for node in nodes:
            node.block = self

    def is_as_it_was(self):
        return identities(tuple(gc.get_referents(*self.things))) == self.found


class Change:
    """What a window changed: the nodes that are new, those that lead elsewhere, and those that are not reached any more."""

    def __init__(self):
        self.new, self.gone = {}, {}
        self.changed = {}      # for each such node the kids that are new to it, and those that are none any more
        self.found = []        # the new ones, also those that are reached by nothing that is reached
        self.before = {}       # the parent of each node whose parent changed
        self.last = []         # what has to live until the window is over

    def release(self):
        """Lets go what is not reached any more, by which code of the program may run. Nodes lead to each other in circles, so each of
        them has to let go its thing."""
        for node in self.gone:
            node.thing = node.found = node.block = None
        self.last.clear()


class Graph:
    def __init__(self):
        self.nodes = {}
        self.numbers = count()
        self.top, self.frames = self.tops = Node(None, next(self.numbers)), Node(None, next(self.numbers))
        for node, depth in zip(self.tops, (0, FAR)):
            node.depth = depth
        self.blocks = {}
        self.singly = {}

    # ------------------------------------------------------------ what is different

    def by_comparing(self, held):
        """The nodes that changed, with what they refer to now."""
        changed = self.changed_tops(held)
        for block in self.blocks:
            if not block.is_as_it_was():
                for node in block.nodes:
                    found = gc.get_referents(node.thing)
                    if not same(found, node.found):
                        changed.append((node, found))
        for node in self.singly:
            found = referents(node.thing)
            if not same(found, node.found) or own_words(node.thing) != node.own:
                changed.append((node, found))
        return changed

    def by_walking(self, held):
        """The same, by a walk to all that can be reached, and all that was found."""
        walked = self.walk(held)
        changed = self.changed_tops(held)
        for node in self.nodes.values():
            if id(node.thing) in walked:
                _, found, _, words = walked[id(node.thing)]
                if not same(found, node.found) or words != node.words():
                    changed.append((node, found))
        return changed, walked

    def changed_tops(self, held):
        return [(node, found) for node, found in zip(self.tops, held) if not same(found, node.found)]

    def walk(self, held):
        """All that can be reached, by its identity: the thing, what it refers to, which objects these are and how often, its words."""
        walked, todo = {}, [thing for found in held for thing in found]
        while todo:
            thing = todo.pop()
            if id(thing) in walked:
                continue
            found = referents(thing)
            objects, words = parts(thing, found)
            walked[id(thing)] = thing, found, Counter(map(id, objects)), own_words(thing) + words
            todo += objects
        return walked

    def compare(self, walked):
        """That the nodes are what a full walk found."""
        if walked.keys() != self.nodes.keys():
            raise Differs(f"{len(self.nodes.keys() - walked.keys())} objects more and {len(walked.keys() - self.nodes.keys())} "
                          "fewer than by the full walk")
        for identity, (thing, found, kids, words) in walked.items():
            node = self.nodes[identity]
            is_same = node.thing is thing and node.words() == words
            if not is_same or {id(kid.thing): often for kid, often in node.kids.items()} != kids:
                raise Differs(f"an object of the type {type(thing).__name__} is not as by the full walk")

    # ------------------------------------------------------------ taking it over

    def update(self, changed):
        """Takes over what the changed nodes refer to now, and answers what that changed."""
        change = Change()
        todo = sorted(changed, key=lambda pair: pair[0].number)
        for node, found in todo:
            change.changed[node] = self.look_into(node, found, change)
        for node in change.found:  # it grows while it is gone through
            self.look_into_new(node, change)
        Ways(self, change).update()
        self.let_go(change)
        self.renew_blocks(change)
        return change

    def look_into(self, node, found, change):
        """Takes over what a node refers to now, and answers which kids are new and which are none any more."""
        change.last.append(node.found)
        before, now = difference(node.found, found)
        node.found = found
        if node in self.tops:
            gone, come = before, now
        else:
            gone, words_gone = parts(node.thing, before)
            come, words_come = parts(node.thing, now)
            node.own, node.more = own_words(node.thing), node.more + words_come - words_gone
        kids, more, fewer = node.kids, [], []
        for thing in come:
            kid = self.nodes.get(id(thing)) or self.new_node(thing, change)
            if kid not in kids:
                kids[kid] = 0
                kid.holders[node] = None
                more.append(kid)
            kids[kid] += 1
        for thing in gone:
            kid = self.nodes[id(thing)]
            kids[kid] -= 1
            if not kids[kid]:
                del kids[kid], kid.holders[node]
                fewer.append(kid)
        return more, fewer

    def look_into_new(self, node, change):
        """Takes over what a new node refers to."""
        thing, nodes, kids = node.thing, self.nodes, node.kids
        node.found = referents(thing)
        objects, node.more = parts(thing, node.found)
        node.own = own_words(thing)
        for other in objects:
            kid = nodes.get(id(other)) or self.new_node(other, change)
            kids[kid] = kids.get(kid, 0) + 1
            kid.holders[node] = None

    def new_node(self, thing, change):
        node = self.nodes[id(thing)] = Node(thing, next(self.numbers))
        change.new[node] = None
        change.found.append(node)
        if is_looked_at_singly(thing):
            self.singly[node] = None
        return node

    def let_go(self, change):
        """Takes out the nodes that are not reached."""
        for node in change.gone:
            for kid in node.kids:
                kid.holders.pop(node, None)
            del self.nodes[id(node.thing)]
            self.singly.pop(node, None)
            change.new.pop(node, None)
            change.changed.pop(node, None)

    def renew_blocks(self, change):
        """What changed now is likely to change again, so it comes to stand together. The last block, which is not full, is filled."""
        apart = {**self.singly, **dict.fromkeys(self.tops)}
        moved = [node for node in (*change.changed, *change.new) if node not in apart and not is_fixed(node.thing)]
        left = {node: None for node in (*moved, *change.gone)}
        broken = {node.block: None for node in left if node.block}
        if self.blocks:
            broken[next(reversed(self.blocks))] = None
        rest = [node for block in broken for node in block.nodes if node not in left]
        for block in broken:
            del self.blocks[block]
        nodes = rest + moved
        for at in range(0, len(nodes), BLOCK):
            self.blocks[Block(nodes[at:at + BLOCK])] = None

    def dissolve(self):
        """Lets go all nodes. They lead to each other in circles, so else collections would have to find them."""
        for node in (*self.tops, *self.nodes.values()):
            node.thing = node.found = node.kids = node.holders = node.parent = node.block = node.form = None

    def told_ways(self, names):
        """The shortest way to each node in words: from a variable of a module, or else from one of a frame."""
        told, ways = {}, {}
        for top in self.tops:
            order = [(top, None)]
            for node, way in order:    # it grows while it is gone through
                for kid in node.kids:
                    if kid not in told:
                        before = way or (names.get(id(kid.thing), VARIABLE) if top is self.top else VARIABLE)
                        step = before, kind_of(kid.thing)
                        told[kid] = ways.get(step) or ways.setdefault(step, Way(*step))
                        order.append((kid, told[kid]))
        return told


class Way:
    """A way to objects, in words: where it is long, its first steps and its last ones."""
    __slots__ = ("before", "kind", "first", "length", "text")

    def __init__(self, before, kind):
        self.before, self.kind, self.text = before, kind, None
        begun = isinstance(before, Way)
        self.length = before.length + 1 if begun else 2
        steps = before.first if begun else (before,)
        self.first = (*steps, kind) if len(steps) < SHOWN else steps

    def __str__(self):
        if self.text is None:
            self.text = self.told()
        return self.text

    def told(self):
        last, step = [], self
        while len(last) < min(SHOWN, self.length - SHOWN):
            last.append(step.kind)
            step = step.before
        skipped = [".."] * (self.length > 2 * SHOWN)
        return " > ".join([*self.first, *skipped, *reversed(last)])


def is_worth(depth, before):
    """Whether a way of one depth is worth leaving another: where that is twice as long. Beside one from a module each from a frame is."""
    return before - depth > 8 + depth % FAR


class Ways:
    """The tree of ways, brought up to date after references that were added and removed.

    An object stays where it hangs as long as that reference is there, unless a new one is a far shorter way: else all that hangs
    from an object would be gone through whenever a frame holds it, and again when not. So depths are bounds. What counts is
    that a parent has less depth than its kid: no way goes in a circle.
    """

    def __init__(self, graph, change):
        self.graph, self.change = graph, change
        self.lost = {}         # nodes whose way is gone, and the new ones
        self.heap, self.turn = [], count()

    def update(self):
        changed = self.change.changed
        self.lose({kid: None for node, (_, fewer) in changed.items() for kid in fewer if kid.parent is node})
        self.lost.update(self.change.new)
        for node in list(self.lost):
            self.offer_best(node)
        for node, (more, _) in changed.items():
            if node.depth is not None:
                for kid in more:
                    self.offer(kid, node)
        self.settle()
        self.change.gone = self.lost

    def lose(self, nodes):
        """Takes the ways from these nodes, and from what hangs from them, but where another reference is a way.

        The nodes of least depth come first. So when one is looked at, all of less depth that lose their ways have lost them, and a
        holder of less depth that has its way keeps it.
        """
        heap = [(node.depth, node.number, node) for node in nodes]
        heapq.heapify(heap)
        before, lost = self.change.before, self.lost
        while heap:
            depth, _, node = heapq.heappop(heap)
            if node in lost:
                continue
            before.setdefault(node, node.parent)
            for holder in node.holders:
                if holder.depth is not None and holder.depth < depth and holder not in lost:
                    node.parent = holder
                    break
            else:
                lost[node] = None
                for kid in node.kids:
                    if kid.parent is node:
                        heapq.heappush(heap, (kid.depth, kid.number, kid))
        for node in lost:
            node.parent = node.depth = None

    def offer_best(self, node):
        best = None
        for holder in node.holders:
            if holder.depth is not None and (best is None or holder.depth < best.depth):
                best = holder
        if best:
            self.offer(node, best)

    def offer(self, node, parent):
        depth = parent.depth + 1
        if node.depth is None or is_worth(depth, node.depth):
            heapq.heappush(self.heap, (depth, next(self.turn), node, parent))

    def settle(self):
        """The nearest first: who gets a way offers it to its kids."""
        while self.heap:
            depth, _, node, parent = heapq.heappop(self.heap)
            if node.depth is not None and not is_worth(depth, node.depth):
                continue
            self.lost.pop(node, None)
            self.change.before.setdefault(node, node.parent)
            node.parent, node.depth = parent, depth
            for kid in node.kids:
                if kid.depth is None or kid.depth > depth:
                    self.offer(kid, node)
