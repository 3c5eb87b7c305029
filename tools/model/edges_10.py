"""Families of cases that come with Order 10: vectors of any node, their own included, to a depth of 64.
edges.py says what a family is.
"""
import draw
from draw import TOP, compact, table_bytes
from edge_calls import a_value, append, around, at_limits, both, read, wrong_cells, write

DEPTHS = (62, 63, 64, 65, 66, 2**32 - 1)


# ---------------------------------------------------------------- tables

def children(rng, orders):
    """A vector's child anywhere in the table and past its end (3); the other kinds keep the lower index."""
    ns = draw.nodes(rng, orders)
    n, i = len(ns), rng.randrange(len(ns))
    at = lambda node: table_bytes(ns[:i] + [node] + ns[i + 1:])
    for child in sorted({0, i, n - 1, n, n + 1, 64, 255, rng.randrange(n)}):
        yield from both(at((10, child, 0)))
    yield from both(at((10, i, 1)))
    kind = rng.choice((6, 7, 8, 9))
    for node in ((kind, i, 1), (kind, n - 1, 1), (kind, 0, i)):
        yield from both(at(node))


def circle(rng, n):
    """n vectors, each of the next one in some order: every node reaches all of them."""
    way = list(range(n))
    rng.shuffle(way)
    ns = [None] * n
    for i, j in zip(way, way[1:] + way[:1]):
        ns[i] = (10, j, 0)
    return ns


def no_longest(rng, orders):
    """A root that reaches itself, one that reaches a circle, and one that only stands beside it."""
    ns = circle(rng, rng.choice((1, 2, 3, 5)))
    i = len(ns)
    yield from both(table_bytes(ns))
    leaf = draw.leaf(rng, orders)
    for root in ((6, i, 0), (9, i, rng.choice((1, 2, 65535))), (6, i - 1, 0), (8, i, 0), (7, 0, i), (10, i, 0), (10, i + 1, 0)):
        yield from both(table_bytes(ns + [leaf, root]))


# ---------------------------------------------------------------- the limit

def given_depth(rng, orders):
    """D itself: 35 comes after the table and before any byte, whatever the table and the message are."""
    t, m = a_value(rng, orders)
    s, lent = bytes(m.bytes), rng.choice((None, len(m.cells)))
    for D in DEPTHS:
        yield read(rng, t, s, D=D, lent=lent)
        yield read(rng, t, rng.choice((b"", s[:-1], s + b"\0")), D=D, lent=lent)
        yield read(rng, t, s, D, rng.choice((0, TOP)), rng.choice((0, TOP)), lent)
    yield read(rng, draw.bad_table(rng, orders), s, D=rng.choice(DEPTHS), lent=lent)
    yield read(rng, table_bytes([(0, 0, 0)]), b"", D=rng.choice(DEPTHS), lent=1)


def through(rng, orders, t, s, cells, deep):
    """A value that nests deep, about 64: read at each D, written, and appended as the items of its root."""
    for D in DEPTHS:
        yield read(rng, t, s, D=D, lent=len(cells))
    if deep <= 64:
        yield from at_limits(rng, orders, t, s)
    yield read(rng, t, s[:-1], lent=len(cells))
    for room in around(len(s)):
        yield write(rng, t, cells, room)
    yield write(rng, t, cells[:-1], len(s))
    yield write(rng, t, cells + [0], len(s))
    if t[-4] == 10 and cells[0] < 64:               # the head of one byte taken off
        old = rng.choice((b"", b"\0", b"\4\0", b"\xfc\0"))
        for room in around(len(s) + len(old)):
            yield append(rng, t, old, room, cells[0], cells[1:])
        yield append(rng, t, b"", len(s), cells[0] + 1, cells[1:])


def itself(rng, orders):
    """A vector of itself: one in the other, with empty ones before and after on some level."""
    deep, wide = rng.choice((63, 64, 65)), rng.randrange(62)
    before, after = rng.choice(((0, 0), (0, 0), (1, 0), (0, 1), (2, 1), (0, 70)))
    counts = [1] * (deep - 1)
    counts[wide] += before + after
    s = (b"".join(map(compact, counts[:wide + 1])) + bytes(before) + b"".join(map(compact, counts[wide + 1:])) + b"\0" + bytes(after))
    cells = counts[:wide + 1] + [0] * before + counts[wide + 1:] + [0] + [0] * after
    yield from through(rng, orders, table_bytes([(10, 0, 0)]), s, cells, deep)


def circles(rng, orders):
    """Vectors in a circle, entered at the root."""
    n, deep = rng.choice((2, 3, 4, 7, 63, 64)), rng.choice((1, 2, 63, 64, 65))
    t = table_bytes(circle(rng, n))
    yield from both(t)
    yield from through(rng, orders, t, b"\4" * (deep - 1) + b"\0", [1] * (deep - 1) + [0], deep)


def last_counts(rng, orders):
    """The count cell at the edge: 20 and 21 come before 15, and 15 before all that the count promises."""
    for deep in (64, 65):
        for count in (0, 1, 2, 2**32 - 1, 2**32, TOP, None):
            cells = [1] * (deep - 1) + ([] if count is None else [count]) + [0] * rng.choice((0, 0, 1, 3))
            yield write(rng, table_bytes([(10, 0, 0)]), cells, rng.choice((0, 80)))
            yield append(rng, table_bytes([(10, 0, 0)]), b"", rng.choice((0, 80)), 1, cells[1:])


def deep_bits(rng, orders):
    """A bit vector on the level at the edge. Reading: 14, 15, 16, 17, 10. Writing: the count cell's 20 and 14,
    15, and only then the other cells' 20 and 21."""
    n = rng.choice((0, 1, 8, 63, 64, 65, 130))
    t = table_bytes([draw.lane(rng, orders), (10, 2, 0), (7, 0, 1), (10, 2, 0)])
    for level in (63, 64, 65):
        first = b"\4" + b"\1\4" * (level - 2) + b"\0"
        cells, words = [1] + [1, 1] * (level - 2) + [0], [0] * -(-n // 64)
        s = first + compact(n) + bytes(64)          # more bytes than any word size needs
        for D in (63, 64, 65):
            yield read(rng, t, s, D=D, lent=len(cells) + 5, whole=0)
        yield read(rng, t, s, C=len(cells) + len(words), whole=0)
        yield read(rng, t, first + compact(n))
        yield read(rng, t, first + compact(rng.choice((2**29 - 1, 2**29))), M=rng.choice((1, TOP)))
        for last in ([n] + words, [n] + words[:-1], [], [2**29 - 1], [2**29], [TOP], [n or 1] + [TOP] * max(1, len(words))):
            yield write(rng, t, cells + last, rng.choice((0, 220)))
            yield append(rng, t, b"", rng.choice((0, 220)), 1, cells[1:] + last)


# ---------------------------------------------------------------- values

def later_child(rng, orders):
    """A vector whose child comes later in the table: an item is charged by that child's own footprint."""
    upper = rng.choice(((3, 16, 0), (4, 8, 0), (6, 1, 0), (7, 1, 0), (8, 1, 1), (8, 0, 1), (9, 1, 3), (10, 1, 0), (10, 0, 0)))
    ns = [(10, 2, 0), draw.leaf(rng, orders), upper]
    ns += rng.choice(([(10, 0, 0)], [(6, 0, 0)], [(8, 0, 1)], [(9, 0, 2)], [(10, 2, 0)], [(10, 4, 0), (6, 3, 0)]))
    yield from of_values(rng, orders, ns)


def trees(rng, orders):
    """A leaf and a vector of the same pair: a tree; or a vector of trees."""
    ns = [draw.leaf(rng, orders), (10, 2, 0), (8, 0, 1)]
    if rng.random() < 0.5:
        ns.append((10, 2, 0))
    yield from of_values(rng, orders, ns)


def of_values(rng, orders, ns):
    """A value of the table, as deep as it comes or about 64, through every job."""
    deep = rng.choice((0, 0, 3, 62, 63, 64))
    m = draw.value(rng, ns, deep=deep, budget=rng.choice((30, 240)))
    t = table_bytes(ns)
    yield from both(t)
    if not m or len(m.cells) > 400:
        return
    s, cells = bytes(m.bytes), list(m.cells)
    yield from at_limits(rng, orders, t, s)
    for D in DEPTHS:
        yield read(rng, t, s, D=D, lent=len(cells))
    for room in around(len(s)):
        yield write(rng, t, cells, room)
    for wrong in wrong_cells(rng, orders, t, cells):
        yield write(rng, t, wrong, len(s) + 9)
    if ns[-1][0] == 10 and cells[0] < 64:
        for room in around(len(s)) + [len(s) + 9]:
            yield append(rng, t, b"", room, cells[0], cells[1:])
            yield append(rng, t, s, room + len(s), cells[0], cells[1:])


FAMILIES = {children: 2, no_longest: 1, given_depth: 3, itself: 3, circles: 2, last_counts: 1, deep_bits: 2,
            later_child: 3, trees: 3}
