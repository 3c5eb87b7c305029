"""What the families of edges.py and edges_10.py share: the ops as calls, limits round a message, wrong cells.

A call is (op, input fields). D is NO_D where it is to refuse nothing; edges.cases puts the number there.
"""
import draw
import model
from draw import TOP, some_cells, table_bytes
from hrv import LENT, WHOLE

NO_D, NO_M = None, TOP                  # limits that refuse nothing but a total that saturates


# ---------------------------------------------------------------- the ops, as calls

def both(t):
    yield 3, dict(table=t)
    yield 4, dict(table=t)


def read(rng, t, s, D=NO_D, M=NO_M, C=TOP, lent=None, whole=None):
    """lent: how many cells, None for none."""
    whole = rng.randrange(2) if whole is None else whole
    return 5, dict(table=t, message=bytes(s), D=D if D is NO_D else max(D, 0), M=min(max(M, 0), TOP), C=min(max(C, 0), TOP),
                   flags=(WHOLE if whole else 0) | (0 if lent is None else LENT),
                   before=some_cells(rng, max(lent or 0, 0)))


def write(rng, t, cells, room):
    return 6, dict(table=t, cells=list(cells), before=rng.randbytes(max(room, 0)))


def append(rng, t, old, room, k, cells, used=None):
    """room: the whole buffer's length."""
    return 7, dict(table=t, before=bytes(old) + rng.randbytes(max(room - len(old), 0)),
                   used_before=len(old) if used is None else used, k=k, cells=list(cells))


def around(n):
    return [n - 1, n, n + 1] if n else [0, 1]


# ---------------------------------------------------------------- reading

def a_value(rng, orders, **how):
    """(table, Maker) of a value that is small enough, and not too deep."""
    while True:
        ns = draw.nodes(rng, orders, **how)
        m = draw.value(rng, ns, deep=rng.choice((0, 0, 2, 4)))
        if m and len(m.bytes) < 1500 and len(m.cells) < 400:
            t = table_bytes(ns)
            if draw.exact(t, bytes(m.bytes), orders)["number"] == 0:
                return t, m


def at_limits(rng, orders, t, s):
    """A readable message under limits around its own nesting, charge and cells."""
    x = draw.exact(t, s, orders)
    depth, charge, cells = x["depth"], x["charge"], x["cells"]
    roomy = cells + 3 if cells < 400 else None
    for D in around(depth):
        yield read(rng, t, s, D=D, lent=roomy)
    for M in (charge, charge + 1, charge + 2):
        yield read(rng, t, s, M=M, lent=roomy)
    for C in around(cells):
        yield read(rng, t, s, C=C, lent=roomy)
        yield read(rng, t, s, C=C)
        if C < 500:
            yield read(rng, t, s, lent=C)
    yield read(rng, t, s, depth, charge + 1, cells, roomy)
    yield read(rng, t, s, depth - 1, charge, cells - 1, roomy)
    yield read(rng, t, s, D=depth - 1, M=charge, lent=roomy)
    yield read(rng, t, s, M=charge, C=cells - 1, lent=roomy)
    yield read(rng, t, s, rng.randrange(depth + 1), rng.randrange(charge + 2), rng.randrange(cells + 1), roomy)
    yield read(rng, t, s, 0, 0, 0, 0)
    yield read(rng, t, s, D=0, lent=roomy)
    yield read(rng, t, s, M=0, lent=roomy)
    # bytes left over: 18 comes after every limit
    more = bytes(s) + b"\0"
    yield read(rng, t, more, lent=roomy, whole=1)
    yield read(rng, t, more, lent=roomy, whole=0)
    yield read(rng, t, more, depth - 1, charge, cells - 1, roomy, whole=1)


# ---------------------------------------------------------------- writing

class Bounds(model.Pen):
    """Notes for each cell the first value that its kind refuses. It knows no depth."""

    def __init__(self, nodes, cells):
        super().__init__(nodes, cells, model.NONE)
        self.below = {}

    def cell(self, below=2**64, number=21):
        self.below[self.at] = below
        return super().cell(below, number)


def wrong_cells(rng, orders, t, cells, times=1, child=False):
    """The cells of `times` items of the root, or of its child, each list wrong in one cell."""
    nodes = model.parse(t, orders)
    pen = Bounds(nodes, cells)
    for _ in range(times):
        pen.item(nodes[-1].a if child else len(nodes) - 1, 0)
    some = rng.sample(sorted(pen.below), min(len(pen.below), 6))
    for i in some:
        below = pen.below[i]
        for v in sorted({below, below - 1, TOP, 2**rng.choice((8, 16, 29, 32, 63))}):
            if v <= TOP:
                yield cells[:i] + [v] + cells[i + 1:]
    yield cells[:-1]
    yield cells[:rng.randrange(len(cells) + 1)]
    yield cells + [0]
    yield cells + some_cells(rng, 2)
    yield []
