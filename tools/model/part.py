"""part.py OUT TIMES FILE.hrv... [--orders=ORDERS]    chooses a part of case files that still has one of each sort

A case is taken if one of its marks has been seen fewer than TIMES times among those taken: op and
number, kinds and widths, forms of numbers, limits met exactly, heads that grow, vectors of later
nodes, nesting about 64, and so on. So the part has every op, number and kind that the files have,
and its size is set by TIMES. Small cases are looked at first. The same files give the same part.
ORDERS are those of the files (model.py's LANDED), 10,2,3 for one.
"""
import sys
from collections import Counter

from draw import compact
from hrv import LENT, OPS, Writer, bodies, parse
import model

SMALL = 3                       # numbers above it are marked by their size only
DEEP = 60                       # nesting above it is marked as it is


def size(n):
    return n if n <= SMALL else f"2^{n.bit_length()}"


def reached(nodes, start):
    """The indexes of the nodes that the children of start reach, in any number of steps."""
    found, left = set(), [start]
    while left:
        n = nodes[left.pop()]
        new = set({6: (n.a,), 7: (n.a, n.b), 8: (n.a, n.b), 9: (n.a,), 10: (n.a,)}.get(n.kind, ())) - found
        found |= new
        left += new
    return found


def table_marks(nodes):
    """The marks of a table that passes its checks: kinds and widths, and vectors of later nodes."""
    root = len(nodes) - 1
    below = reached(nodes, root)
    found = set()
    for i in below | {root}:
        n = nodes[i]
        found.add((n.kind, n.a if n.kind in (3, 4, 5) else None))
        if n.kind == 10 and n.a >= i:
            found.add(("upward", "itself" if n.a == i else "later", nodes[n.a].kind))
            found.add(("circle", i in reached(nodes, i), root in below))
    if any(n.kind == 10 and n.a >= i for i, n in enumerate(nodes) if i not in below and i != root):
        found.add(("upward", "not reached"))
    return found


def wrong_node(table, i):
    """The kind of a node that is refused with 3, and where its child would be."""
    kind, a = table[6 + 4 * i:8 + 4 * i]
    if kind not in (6, 7, 8, 9, 10):
        return (kind,) if kind < 12 else ("unknown",)
    return kind, "below" if a < i else "itself" if a == i else "later" if a < table[5] else "past the end"


def bit_count(n):
    return "bits", size(n), n % 8 == 0, n % 64 == 0


class Reading(model.Walk):
    """Notes the kind of the item it is at, by how many cells room was short, and its bit vectors."""

    kind = short = None

    def item(self, i, at, depth):
        self.kind = self.nodes[i].kind
        return super().item(i, at, depth)

    def room(self, n, at):
        self.short = self.count + n - self.C
        super().room(n, at)

    def bits(self, n, at, depth):
        count, used = self.compact(4, at)
        raw = self.s[at + used:at + used + model.bit_bytes(n, count)] if count < 9999 else b""
        padded = model.flip(raw, *model.word(n)) >> count if len(raw) == model.bit_bytes(n, count) else 0
        self.found.append(bit_count(count) + (bool(padded),))
        return super().bits(n, at, depth)


def read_marks(q, nodes, orders, number):
    lent = len(q["before"]) if q["flags"] & LENT else q["C"]
    walk = Reading(nodes, q["message"], q["D"], q["M"], min(q["C"], lent), orders, False)
    walk.found = []
    try:
        walk.run()
    except model.Refused:
        yield "item", walk.kind, number
        if number == 17:
            yield "short of cells", walk.kind, size(walk.short) if walk.short else None
    for found in walk.found:
        yield *found, number


class Writing(model.Pen):
    """Notes the level and the kind of the last vector or bit vector that it began, and bit counts."""

    last = 0, None

    def item(self, i, depth):
        if self.nodes[i].kind in (10, 11):
            self.last = depth + 1, self.nodes[i].kind
        super().item(i, depth)

    def lanes(self, n, depth):
        if self.at < len(self.cells):
            self.found.append(bit_count(self.cells[self.at]))
        super().lanes(n, depth)


def write_marks(op, q, nodes, orders, number):
    """Of what a writer or an append meets in its cells."""
    pen = Writing(nodes, q["cells"], orders)
    pen.found = []
    i, depth, count = (nodes[-1].a, 1, q["k"]) if op == 7 else (len(nodes) - 1, 0, 1)
    try:
        for _ in range(count):
            pen.item(i, depth)
    except model.Refused:
        level, kind = pen.last
        yield "item", kind, level if level > DEEP else None, number
    for found in pen.found:
        yield *found, number


def marks(op, q, a, orders):
    if op > 7:                  # of an op that comes with an Order: what it is counted as
        yield "label", OPS[op].label(q, a)
        return
    number = a.get("number", 0)
    yield "number", number
    if op in (1, 2):
        form = (q["s"][:1] or b"\0")[0] & 3 if op == 1 else len(a["bytes"])
        yield q["width"], form, number
        yield "value", size(a["low"] | a["high"] << 64) if op == 1 else size(q["low"] | q["high"] << 64)
        return
    if number in (1, 2, 3, 4):
        yield "table", number, size(len(q["table"])), size(a["place"])
        if number == 3:
            yield "node", *wrong_node(q["table"], a["place"])
        return
    nodes = model.parse(q["table"], orders)
    for mark in sorted(table_marks(nodes), key=str):
        yield "kind", mark, number
    root = q["table"][-4]
    yield "root", root, number
    if op == 4:
        yield a["has"], size(a["length"])
    if op == 5 and number != 35:
        yield from read_marks(q, nodes, orders, number)
    if op == 5:
        lent = len(q["before"]) if q["flags"] & LENT else None
        yield "flags", q["flags"], number
        yield "length", size(len(q["message"])), number
        yield "place", size(a["place"]), number
        if number == 0:
            # which limits are met exactly
            exact = q["D"] == a["depth"], q["M"] == a["charge"] + 1, q["C"] == a["cells"], lent == a["cells"]
            yield "exact", exact
            yield "totals", size(a["cells"]), size(a["depth"])
            yield "charge", size(a["charge"])
            if a["depth"] > DEEP:
                yield "depth", a["depth"], q["D"] == a["depth"]
        if number in (15, 35):
            yield "depth", q["D"] if q["D"] > DEEP else None, number
        if number in (15, 16, 17):
            yield "limits", size(q["D"]), number
            yield "limits", size(q["M"]), number
            yield "limits", size(q["C"]), number
    if op in (6, 7) and number in (0, 14, 15, 20, 21, 22, 23):
        yield from write_marks(op, q, nodes, orders, number)
    if op in (6, 7) and number == 15:
        yield "nested", a["place"] == len(q["cells"]) - 1, size(q["cells"][a["place"]])
    if op == 6:
        yield "room", number, size(abs(len(q["before"]) - a["length"]))
        yield "cells", number, size(len(q["cells"]))
    if op == 7:
        yield "k", number, size(q["k"])
        yield "used", number, size(q["used_before"]), q["used_before"] == len(q["before"])
        if number in (0, 22, 33):
            old = model.old_count(q["before"], q["used_before"])[0]
            yield "heads", number, size(old), len(compact(min(old + q["k"], 2**32 - 1)))
            yield "room", number, size(len(q["before"]) - a["used"] if number == 0 else 0)


def main(argv):
    argv, orders = model.orders_option(argv)
    if len(argv) < 3:
        print(__doc__)
        return 2
    out, times, seen = Writer(argv[0], orders), int(argv[1]), Counter()
    everything = sorted((case for path in argv[2:] for case in bodies(path)), key=lambda case: len(case[1]))
    for code, b in everything:
        q, a = parse(OPS[code], orders, b)
        found = [(code, *mark) for mark in marks(code, q, a, orders)]
        if any(seen[mark] < times for mark in found):
            seen.update(found)
            out.add(code, q, a)
    out.close()
    print(f"{len(seen)} marks")
    return 0


if __name__ == "__main__":
    sys.exit(main(sys.argv[1:]))
