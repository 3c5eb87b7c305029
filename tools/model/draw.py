"""Random tables, values, messages, cells and damage, and limits round a message.

Everything is drawn from the random.Random handed in, so a seed fixes every case. Maker writes its
values by an encoder of its own, which makes a second opinion beside model.py. orders is a set of
Orders, as in model.py.
"""
import model
from model import TOP

WIDTHS = (1, 2, 4, 8, 16)


# ---------------------------------------------------------------- tables

def table_bytes(nodes, version=1):
    return (b"WTD" + version.to_bytes(2, "little") + bytes([len(nodes) & 255])
            + b"".join(bytes([k, a & 255]) + (b & 0xFFFF).to_bytes(2, "little") for k, a, b in nodes))


def foot(nodes, orders):
    f = []
    for k, a, b in nodes:
        if k in (6, 7, 8, 9):
            x, y = f[a], f[b] if k in (7, 8) else 0
            f.append({6: 1 + x, 7: 1 + (max(x, y) if 2 in orders else x + y), 8: x + y, 9: b * x}[k])
        else:
            f.append({0: 0, 1: 1, 2: 1, 10: 24, 11: 24}.get(k, a))
    return f


def leaf(rng, orders, version=1):
    k = rng.choice((0, 0, 1, 1, 2, 2, 3, 3, 3, 3, 4, 4, 4, 5, 11, 11, 11))
    if k == 2 and version == 2:
        k = 1
    if k in (3, 4):
        return k, rng.choice(WIDTHS + (1, 1, 2)), 0
    if k == 5:
        return k, rng.choice((4, 8)), 0
    if k == 11 and 9 in orders:
        return k, rng.choice((0, 1, 2, 4, 8)), rng.randrange(2)
    return k, 0, 0


PLANS = ((6, 7, 8, 9, 10), (6, 7, 8, 8, 9, 10, 10), (10,), (6, 10), (8, 9, 10), (8, 10), (7, 10), (6, 7), (9, 10))


def nodes(rng, orders, version=1, root=None, size=None, forward=True):
    """Nodes of a valid table. root: the root's kind if it matters; forward: vectors may point on (Order 10)."""
    n = size or rng.choice((1, 2, 2, 2, 3, 3, 3, 4, 4, 5, 6, 8, 12, 20, rng.randrange(2, 65)))
    if root in (6, 7, 8, 9, 10) and n == 1 and not (root == 10 and 10 in orders):
        n = 2
    plan = rng.choice(PLANS)
    out = []
    for i in range(n):
        last = i == n - 1
        child = lambda: i - 1 if rng.random() < 0.6 else rng.randrange(i)
        k = root if last and root is not None else None
        if k is None and i and rng.random() < (0.9 if last or n > 8 else 0.5):
            k = rng.choice(plan)
        if k == 10 or (k is None and i == 0 and 10 in orders and forward and rng.random() < 0.15):
            if 10 in orders and forward and (i == 0 or rng.random() < 0.3):
                node = (10, rng.randrange(n), 0)
            else:
                node = (10, child(), 0)
        elif k == 6:
            node = (6, child(), 0)
        elif k in (7, 8):
            node = (k, child(), child())
        elif k == 9:
            node = (9, child(), rng.choice((1, 1, 2, 2, 3, 4, 5, 8, 17, rng.randrange(1, 70), 65535)))
        elif k is not None:
            node = leaf(rng, orders, version)
            while node[0] != k:
                node = leaf(rng, orders, version)
        else:
            node = leaf(rng, orders, version)
        if foot(out + [node], orders)[-1] > 2**31 - 1:
            node = (3, 1, 0)
        out.append(node)
    return out


def table(rng, orders, **how):
    """(nodes, version, bytes) of a valid table."""
    version = rng.choice((1, 1, 2)) if 8 in orders else 1
    version = how.pop("version", version)
    ns = nodes(rng, orders, version, **how)
    return ns, version, table_bytes(ns, version)


def any_version(rng, orders):
    return rng.choice((1, 2)) if 8 in orders else 1


def edge_nodes(rng):
    """Footprints at and around 2^31 - 1 (65535 x 32768 + 32767)."""
    ns = [(3, 1, 0), (9, 0, 32768), (9, 1, 65535), (9, 0, 32767)]
    ns += rng.choice(([(8, 2, 3)], [(8, 3, 2)], [(7, 2, 3)], [(7, 3, 2)], [(6, 2, 0)]))
    more = rng.randrange(4)
    if more == 0:
        ns.append((6, len(ns) - 1, 0))
    elif more == 1:
        ns += [(0, 0, 0), (8, len(ns) - 1, len(ns))]
    elif more == 2:
        ns += [(10, len(ns) - 1, 0), (9, len(ns), rng.choice((1, 65535)))]
    return ns


def bad_table(rng, orders):
    """Bytes of a damaged table, often still valid."""
    ns, version, b = table(rng, orders)
    how = rng.randrange(10)
    if how == 0:
        return b[:rng.randrange(len(b) + 1)]
    if how == 1:
        return b + bytes(rng.randrange(1, 6))
    if how == 2:
        at = rng.randrange(6)
        return b[:at] + bytes([rng.choice((0, 1, 2, 3, 64, 65, 255, rng.randrange(256)))]) + b[at + 1:]
    if how == 3:
        return table_bytes(ns, rng.choice((0, 1, 2, 3, 256, 257, 513)))
    if how == 4:
        return table_bytes(edge_nodes(rng), rng.choice((1, 1, 2)) if 8 in orders else 1)
    if how == 5:
        ns = (ns * 65)[:rng.choice((64, 65))] if len(ns) < 9 else ns
        return table_bytes(ns, version)
    for _ in range(rng.choice((1, 1, 1, 2))):
        i = rng.randrange(len(ns))
        k, x, y = ns[i]
        field = rng.randrange(4)
        if field == 0:
            k = rng.choice((rng.randrange(13), 255))
        elif field == 1:
            x = rng.choice((0, 1, 2, 3, 4, 8, 16, 17, i, i + 1, len(ns) - 1, len(ns), 255))
        elif field == 2:
            y = rng.choice((0, 1, 2, i, i + 1, len(ns), 256, 256 + i, 65535))
        else:
            k, x, y = rng.randrange(12), rng.choice((0, i - 1 if i else 0, 1, 4)), rng.choice((0, 0, 1))
        ns = ns[:i] + [(k, x, y)] + ns[i + 1:]
    return table_bytes(ns, version)


# ---------------------------------------------------------------- tables of some sort

def lane(rng, orders):
    """A bit vector's node."""
    return (11, rng.choice((0, 1, 2, 4, 8)), rng.randrange(2)) if 9 in orders else (11, 0, 0)


def borders(w):
    """Bit counts round the borders of words of w bytes and of cells."""
    at = {8 * w * j for j in range(6)} | {64 * j for j in range(4)} | {512}
    return sorted({max(0, n + d) for n in at for d in (-1, 0, 1)})


def wrapped(rng, ns, root10):
    """ns below a few more nodes; with root10 the root is a vector."""
    ns = list(ns)
    for _ in range(rng.choice((0, 0, 1, 1, 2))):
        i = len(ns) - 1
        ns.append(rng.choice(((6, i, 0), (8, i, i), (8, i, 0), (9, i, 2), (7, 0, i), (10, i, 0))))
    if root10:
        ns.append((10, len(ns) - 1, 0))
    return ns


# tables in which a vector holds itself, alone or over other nodes
RECURSIVE = ([(10, 0, 0)], [(10, 1, 0), (10, 0, 0)], [(11, 0, 0), (10, 3, 0), (3, 1, 0), (10, 1, 0)],
             [(11, 0, 0), (10, 2, 0), (7, 0, 1), (10, 2, 0)], [(11, 2, 1), (10, 2, 0), (6, 1, 0), (10, 2, 0)],
             [(11, 8, 0), (10, 2, 0), (8, 1, 0), (10, 2, 0)], [(0, 0, 0), (10, 2, 0), (7, 1, 0), (10, 2, 0)])
DEEP = (0, 62, 63, 63, 63, 64, 64, 65)                      # a value often goes one level further


def recursive(rng, orders):
    """One of RECURSIVE whose words these Orders know."""
    return rng.choice([ns for ns in RECURSIVE if 9 in orders or all(n[0] != 11 or n[1] == 0 for n in ns)])


def a_table(rng, orders, given=None, **how):
    """(nodes, table bytes); now and then the bytes are those of a damaged table."""
    if 10 in orders and not given and how.get("forward", True) and rng.random() < 0.08:
        given = recursive(rng, orders)
    if given:
        return given, table_bytes(given)
    ns, version, t = table(rng, orders, **how)
    return ns, t if rng.random() < 0.96 else bad_table(rng, orders)


def lanes_plan(rng, orders, root10=False):
    """(nodes, table) of bit vectors, and the bit counts that matter under it."""
    node = lane(rng, orders)
    ns = wrapped(rng, [node], root10)
    return ns, table_bytes(ns, any_version(rng, orders)), borders(node[1] or 1)


def optionbool(rng, ns):
    """ns with a kind 2 or two among its leaves, reached or not; the root stays."""
    ns = list(ns)
    for _ in range(rng.choice((1, 1, 2))):
        leaves = [i for i, n in enumerate(ns[:-1]) if n[0] in (0, 1, 2, 3, 4, 5)]
        if leaves and rng.random() < 0.8:
            ns[rng.choice(leaves)] = (2, 0, 0)
        elif len(ns) < 64:
            ns = [(2, 0, 0)] + [(k, a + 1 if k in (6, 7, 8, 9, 10) else a, b + 1 if k in (7, 8) else b) for k, a, b in ns]
    return ns


# ---------------------------------------------------------------- values

class TooBig(Exception):
    pass


def compact(v):
    for form, (top, size) in enumerate(((2**6, 1), (2**14, 2), (2**30, 4))):
        if v < top:
            return (v * 4 + form).to_bytes(size, "little")
    size = 4
    while v >= 256**size:
        size += 1
    return bytes([size * 4 - 13]) + v.to_bytes(size, "little")


def odd_compact(rng, v):
    """Some bytes that open like a compact number, mostly v in a form that isn't its own."""
    how = rng.randrange(6)
    if how == 0 and v < 2**14:
        return (v * 4 + 1).to_bytes(2, "little")
    if how == 1 and v < 2**30:
        return (v * 4 + 2).to_bytes(4, "little")
    if how <= 4:
        size = rng.choice((4, 5, 7, 8, 9, 16, 17, 67))
        return bytes([size * 4 - 13]) + (v % 256**size).to_bytes(size, "little")
    return bytes([rng.choice((0x01, 0x02, 0x03, 0x07, 0x0B, 0x13, 0x17, 0x33, 0x37, 0xFF))])


def number(rng, width):
    """A number of that many bytes: small, at an edge or any."""
    how = rng.randrange(6)
    if how < 3:
        return rng.randrange(3)
    if how == 3:
        e = rng.choice([x for x in (6, 8, 14, 16, 30, 32, 40, 56, 64, 72, 120, 128) if x <= 8 * width])
        return max(0, min(256**width - 1, 2**e + rng.choice((-1, 0, 1))))
    if how == 4:
        return rng.getrandbits(rng.randrange(1, 8 * width + 1))
    return 256**width - 1


# zeros, infinities, NaNs quiet and signalling, the smallest numbers, 1, 2 and the largest
FLOATS = {4: (0, 0x80000000, 0x7F800000, 0xFF800000, 0x7F800001, 0x7FC00000, 0xFFC00001, 0xFFFFFFFF,
              1, 0x80000001, 0x3F800000, 0xBF800000, 0x40000000, 0x7F7FFFFF),
          8: (0, 1 << 63, 0x7FF << 52, 0xFFF << 52, 0x7FF0000000000001, 0x7FF8000000000000,
              0xFFF8000000000001, TOP, 1, (1 << 63) + 1, 0x3FF0000000000000, 0xBFF0000000000000,
              0x4000000000000000, 0x7FEFFFFFFFFFFFFF)}


def float_bits(rng, width):
    return rng.choice(FLOATS[width]) if rng.random() < 0.8 else rng.getrandbits(8 * width)


BITS = (0, 1, 3, 7, 8, 9, 15, 16, 17, 31, 32, 33, 63, 64, 65, 71, 72, 73, 127, 128, 129, 130, 136, 137)


class Maker:
    """Makes one random value: .cells and .bytes. With p above 0 the bytes carry faults; deep asks
    for vectors nested about so far; budget bounds the size. rubbish: the chance that a bit vector has
    bits past its end set; lengths: the bit counts to choose from, if not any; floats: draws a float."""

    def __init__(self, rng, ns, p=0.0, deep=0, budget=150, rubbish=0.0, lengths=None, floats=float_bits):
        self.rng, self.ns, self.p, self.deep, self.budget = rng, ns, p, deep, budget
        self.rubbish, self.lengths, self.floats = rubbish, lengths, floats
        self.cells, self.bytes = [], bytearray()

    def fault(self):
        return self.p and self.rng.random() < self.p

    def spend(self, n=1):
        self.budget -= n
        if self.budget < 0:
            raise TooBig

    def compact(self, v):
        if self.fault():
            self.bytes += odd_compact(self.rng, v)
        else:
            self.bytes += compact(v)

    def scalar(self, v, width):
        self.cells += [v] if width < 16 else [v & TOP, v >> 64]

    def tag(self, v):
        self.cells.append(v)
        self.bytes.append(self.rng.choice((2, 3, 128, 255)) if self.fault() else v)

    def item(self, i, depth=0):
        rng = self.rng
        k, a, b = self.ns[i]
        self.spend()
        if k == 0:
            self.cells.append(0)
        elif k in (1, 2):
            self.tag(rng.randrange(k + 1))
        elif k == 3 or k == 5:
            v = number(rng, a) if k == 3 else self.floats(rng, a)
            self.scalar(v, a)
            self.bytes += v.to_bytes(a, "little")
        elif k == 4:
            v = number(rng, a)
            self.scalar(v, a)
            self.compact(v)
        elif k in (6, 7):
            t = int(rng.random() < 0.7) if k == 6 else rng.randrange(2)
            if depth < self.deep:
                t = int(k == 6 or self.ns[b][0] == 10 or self.ns[a][0] != 10)
            self.tag(t)
            if k == 7 or t:
                self.item(b if k == 7 and t else a, depth)
        elif k == 8:
            self.item(a, depth)
            self.item(b, depth)
        elif k == 9:
            for _ in range(b):
                self.item(a, depth)
        elif k == 10:
            self.vector(a, depth)
        else:
            self.lanes(max(1, a), b, depth)

    def vector(self, a, depth):
        rng = self.rng
        if depth + 1 < self.deep or (depth + 1 == self.deep and rng.random() < 0.7):
            n = 1
        elif rng.random() < 0.06 and self.ns[a][0] in (0, 1, 2, 3, 4) and self.budget > 70:
            n = rng.choice((62, 63, 64, 65))
        else:
            n = rng.choice((0, 1, 2, 2, 3, 4, 9) if depth < 2 else (0, 1, 1, 2) if depth < 5 else (0, 0, 0, 1, 2))
        if depth + 1 >= self.deep:
            self.deep = 0
        self.cells.append(n)
        lie = n
        if self.fault():
            lie = rng.choice((n + 1, max(0, n - 1), 63, 64, 2**14, 2**30, 2**32 - 1))
        self.compact(lie)
        for _ in range(n):
            self.item(a, depth + 1)

    def lanes(self, w, high, depth):
        rng = self.rng
        if self.lengths:
            n = rng.choice(self.lengths)
        else:
            n = rng.choice(BITS) if rng.random() < 0.8 else rng.randrange(200)
        self.spend(n // 64)
        value = rng.choice((0, (1 << n) - 1, rng.getrandbits(n) if n else 0))
        raw = bytearray(-(-n // (8 * w)) * w)
        pad = rng.getrandbits(8 * len(raw)) if self.p and rng.random() < 0.4 else 0
        if self.rubbish and n < 8 * len(raw) and rng.random() < self.rubbish:
            pad = rng.choice((1 << n, 1 << 8 * len(raw) - 1, 1 << rng.randrange(n, 8 * len(raw)), -1))
        for i in range(8 * len(raw)):
            if (value >> i & 1) if i < n else (pad >> i & 1):
                word, j = divmod(i, 8 * w)
                if high:
                    j = 8 * w - 1 - j
                raw[word * w + j // 8] |= 1 << j % 8
        self.cells += [n] + [value >> 64 * j & TOP for j in range(-(-n // 64))]
        lie = n
        if self.fault():
            lie = rng.choice((n + 1, n + 8, 2 * n, 2**14, 0x1FFFFFFF, 0x20000000, 2**30, 2**32 - 1))
        self.compact(lie)
        self.bytes += raw


def value(rng, ns, i=None, p=0.0, deep=0, depth=0, budget=150, times=1, **how):
    """A Maker that has made `times` values of node i (the root), or None if none is small."""
    for _ in range(3):
        m = Maker(rng, ns, p, deep, budget, **how)
        try:
            for _ in range(times):
                m.item(len(ns) - 1 if i is None else i, depth)
            return m
        except (TooBig, RecursionError):
            deep = 0
    return None


def bytes_of(m):
    return bytes(m.bytes) if m else b""


# ---------------------------------------------------------------- messages, cells and damage

def random_bytes(rng, most=24):
    n = rng.randrange(most)
    return bytes(rng.choice((0, 0, 1, 1, 2, 3, 4, 8, 12, 252, 254, 255, rng.randrange(256))) for _ in range(n))


def damage(rng, b):
    b = bytearray(b)
    for _ in range(rng.choice((1, 1, 1, 2, 3))):
        how, at = rng.randrange(8), rng.randrange(len(b) + 1)
        if how == 0:
            del b[at:]
        elif how == 1:
            b += random_bytes(rng, 5)
        elif how == 2:
            b[at:at + 1] = b""
        elif how == 3:
            b[at:at] = bytes([rng.randrange(256)])
        elif at < len(b):
            b[at] = {4: b[at] ^ 1 << rng.randrange(8), 5: rng.randrange(256),
                     6: rng.choice((0, 1, 2, 3, 255)), 7: (b[at] + rng.choice((1, 4, 252, 255))) & 255}[how]
    return bytes(b)


def after(rng, s):
    """s, cut short, longer or as it is."""
    how = rng.randrange(8)
    return s[:-rng.choice((1, 1, 2, 3, 8))] if how < 2 else s + random_bytes(rng, 4) if how == 2 else s


def message(rng, ns, deep=0):
    """(bytes, cells or None): clean with its cells, or with faults or damage."""
    how = rng.randrange(8)
    if how == 7:
        return random_bytes(rng), None
    m = value(rng, ns, p=0.08 if how in (4, 5) else 0.0, deep=deep)
    if m is None:
        return random_bytes(rng), None
    if how < 3:
        return bytes(m.bytes), m.cells
    if how == 3:
        return bytes(m.bytes) + random_bytes(rng, 6), m.cells
    if how == 6 or rng.random() < 0.2:
        return damage(rng, m.bytes), None
    return bytes(m.bytes), None


def idle_case(rng):
    """(nodes, message, cells at stake): a vector of items without bytes, with any count."""
    ns = [(0, 0, 0)]
    for _ in range(rng.choice((0, 0, 1, 2, 5, 60))):
        i = len(ns) - 1
        ns.append((8, i, rng.randrange(i + 1)) if rng.random() < 0.4 else (9, i, rng.choice((1, 2, 3, 65535))))
    count = [0, 1, 2, 3, 4, 63, 64, 2**14, 2**30, 2**32 - 1][rng.randrange(10)]
    if rng.random() < 0.7:
        ns = ns[:rng.choice((1, 2, 3))]
    each = []
    for k, a, b in ns:
        each.append({0: 1, 8: 0, 9: 0}[k] or (each[a] + each[b] if k == 8 else b * each[a]))
    ns.append((10, len(ns) - 1, 0))
    s = compact(count)
    if rng.random() < 0.3:
        ns += [(1, 0, 0), (8, len(ns) - 1, len(ns))]
        s += bytes([rng.randrange(3)])
    return ns, s, 1 + count * each[-1]


def deep_target(rng, orders, ns=None):
    if ns in RECURSIVE:
        return rng.choice((0, 63, 64, 64, 65))
    return rng.choice((0, 0, 0, 2, 5, 62, 63, 64, 65, 66)) if 10 in orders else rng.choice((0, 0, 0, 3, 30, 64))


def some_cells(rng, n):
    return [rng.choice((0, 7, TOP, rng.getrandbits(64))) for _ in range(n)]


def damage_cells(rng, cells):
    cells = list(cells)
    for _ in range(rng.choice((1, 1, 2))):
        how, at = rng.randrange(6), rng.randrange(len(cells) + 1)
        if how == 0:
            del cells[at:]
        elif how == 1:
            cells += some_cells(rng, rng.randrange(1, 4))
        elif how == 2:
            cells[at:at + 1] = []
        elif at < len(cells):
            cells[at] = {3: number(rng, 8), 4: cells[at] ^ 1 << rng.randrange(64),
                         5: rng.choice((2, 3, 256, 2**16, 2**29 - 1, 2**29, 2**30, 2**32 - 1, 2**32, TOP))}[how]
    return cells


# ---------------------------------------------------------------- limits

def near(rng, exact, top=TOP):
    """A limit around an exact threshold."""
    v = exact + rng.choice((-1, -1, 0, 0, 1, 1, 2))
    how = rng.randrange(8)
    if how == 0:
        v = rng.randrange(exact + 1)
    elif how == 1:
        v = rng.choice((0, 1, top))
    return max(0, min(top, v))


def exact(table, s, orders):
    """depth, charge, cells of the front read without limits (0s if refused)."""
    return model.read(table, s, 64 if 10 in orders else 2**32 - 1, TOP, TOP, None, False, orders=orders)


def limits(rng, table, s, orders):
    """D, M, C: generous but for one or more at a threshold."""
    x = exact(table, s, orders)
    if x["number"]:                       # no thresholds: generous, or tight at random
        x["depth"], x["charge"], x["cells"] = rng.randrange(5), rng.randrange(60), rng.randrange(30)
        if rng.random() < 0.6:
            return 64, TOP, TOP, x
    D = rng.choice((x["depth"], 16, 64))
    M = rng.choice((x["charge"] + 1, 65536, TOP))
    C = rng.choice((x["cells"], 4096, TOP))
    tight = rng.choice(((), (0,), (1,), (2,), (0, 1), (1, 2), (0, 1, 2)))
    if 0 in tight:
        D = near(rng, x["depth"], 2**32 - 1)
    if 1 in tight:
        M = near(rng, x["charge"] + 1)
    if 2 in tight:
        C = near(rng, x["cells"])
    if 10 in orders and rng.random() < 0.05:
        D = rng.choice((64, 65, 66, 2**32 - 1))
    return D, M, C, x
