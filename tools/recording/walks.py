"""Ways to objects through the heap of the trace, and the registers in which they are gone.

Which objects a program came by is not known, only which it used. So a way leads through used objects as long as it can, and from
there on by the tree of ways of the graph. All ways of a walk are one tree. A node is left for the last of its branches in its own
register, so a branch costs a register and a chain none: a tree that branches in two everywhere and is 13 deep takes 14. Where
the registers do not suffice, a branch is gone to from the top once more.
"""
FIRST, LAST = 2, 15        # the registers of walks


def ways_to(wanted, tops, leads, parent_of):
    """A tree, as a dictionary of branches, by which each wanted node is reached from one of the tops."""
    tree, settled, left = {}, dict.fromkeys(tops), dict.fromkeys(wanted)
    order = list(tops)

    def settle(node, parent):
        settled[node] = None
        left.pop(node, None)
        tree.setdefault(parent, []).append(node)
        order.append(node)

    for top in tops:
        left.pop(top, None)
    at, in_turn = 0, iter(list(left))
    while left:
        while at < len(order):
            node, at = order[at], at + 1
            kids = leads(node)
            fewer, more = (kids, left) if len(kids) < len(left) else (left, kids)
            for kid in [kid for kid in fewer if kid in more]:
                settle(kid, node)
        node = next((node for node in in_turn if node in left), None)
        chain = []
        while node is not None and node not in settled:
            chain.append(node)
            node = parent_of(node)
        for step in reversed(chain):
            settle(step, node)
            node = step
    return tree


def registers_of(tree, top):
    """How many registers the branches of each node take."""
    order, needs = [top], {}
    for node in order:         # it grows while it is gone through
        order += tree.get(node, ())
    for node in reversed(order):
        branches = tree.get(node, ())
        if len(branches) > 1:
            *_, second, first = sorted([needs[kid] for kid in branches])
            needs[node] = max(first, second + 1)
        else:
            needs[node] = needs[branches[0]] if branches else 1
    return needs


def go(tree, top, load, visit):
    """Goes the tree: `load(None, None, top, r)` and `load(node, its register, kid, r)` take a step, `visit(node, r)` is told once
    of each node."""
    needs, visited, trees = registers_of(tree, top), set(), [tree]
    parents = {kid: node for node, kids in tree.items() for kid in kids} if needs[top] > LAST - FIRST + 1 else {}
    for branches in trees:     # it grows while it is gone through
        todo = [(None, None, top, FIRST)]
        while todo:
            parent, source, node, register = todo.pop()
            load(parent, source, node, register)
            if node not in visited:
                visited.add(node)
                visit(node, register)
            kids = branches.get(node)
            if not kids:
                continue
            if len(kids) > 1:
                kids = sorted(kids, key=needs.__getitem__, reverse=True)
            todo.append((node, register, kids[0], register))
            if register < LAST:
                todo += [(node, register, kid, register + 1) for kid in kids[1:]]
            else:
                trees += [branch_alone(tree, parents, node, kid) for kid in kids[1:]]


def branch_alone(tree, parents, node, kid):
    """The tree with one branch, and what is behind it."""
    alone, todo = {node: [kid]}, [kid]
    while node in parents:
        alone[parents[node]] = [node]
        node = parents[node]
    while todo:
        node = todo.pop()
        if node in tree:
            alone[node] = tree[node]
            todo += tree[node]
    return alone
