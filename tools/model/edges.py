"""Cases at the edges of the rules, in families: each draws one value, message or table and then goes
round its edges: limits one below, at and one above; bytes, cells and outputs one short, exact and one
too many; every other spelling of a number; the first cell that a kind refuses. A port that is wrong by
one anywhere meets one of them soon.

A family is a generator of (op, input fields); cases(rng, orders) goes on for ever. edges_10.py has the
families that come with Order 10.
"""
import draw
import draw_jobs
import edges_10
import model
from draw import TOP, WIDTHS, compact, table_bytes
from edge_calls import NO_D, NO_M, a_value, append, around, at_limits, both, read, wrong_cells, write


# ---------------------------------------------------------------- compact numbers

def edge_number(rng):
    """A number at an edge of a form or width, or any number of so many bits."""
    if rng.random() < 0.7:
        power = rng.choice((0, 6, 8, 14, 16, 22, 30, 32) + tuple(range(40, 137, 8)))
        return max(0, 2**power + rng.choice((-1, 0, 1)))
    return rng.getrandbits(rng.randrange(1, 137))


def spellings(v):
    """v in every form that can hold it, its own included; form 3 with up to 20 value bytes."""
    for form, (bits, size) in enumerate(((6, 1), (14, 2), (30, 4))):
        if v < 2**bits:
            yield (v * 4 + form).to_bytes(size, "little")
    for size in range(4, 21):
        if v < 256**size:
            yield bytes([size * 4 - 13]) + v.to_bytes(size, "little")


def compact_numbers(rng, orders):
    v = edge_number(rng)
    own = compact(v)
    for w in WIDTHS:
        yield 1, dict(width=w, s=own)
        yield 1, dict(width=w, s=own[:-1])
        yield 1, dict(width=w, s=own + rng.randbytes(rng.randrange(1, 4)))
        if v < 256**w:
            yield 2, dict(width=w, low=v & TOP, high=v >> 64)
    w = rng.choice(WIDTHS)
    for s in spellings(v):
        yield 1, dict(width=w, s=s)
    first = rng.randrange(256)
    for w in WIDTHS:
        yield 1, dict(width=w, s=bytes([first]))
        yield 1, dict(width=w, s=bytes([first]) + rng.randbytes(model.form_size(first) - 1))


# ---------------------------------------------------------------- tables

def tables(rng, orders):
    ns = draw.nodes(rng, orders)
    t = table_bytes(ns)
    yield from both(t)
    for cut in (t[:-1], t + b"\0", t[:rng.randrange(7)], t + t[6:10]):
        yield from both(cut)
    at = rng.randrange(6)
    yield from both(t[:at] + bytes([t[at] + rng.choice((1, 255)) & 255]) + t[at + 1:])
    yield from both(table_bytes([(3, 1, 0)] * rng.choice((62, 63, 64, 254)) + [(10, 0, 0)]))
    i = rng.randrange(len(ns))
    kind, a, b = ns[i]
    for node in ((kind, i, b), (kind, i + 1, b), (kind, a, 0), (kind, a, 1), (kind, a, i), (kind, a, 256 + b), (12, 0, 0),
                 (kind, rng.choice((0, 1, 2, 3, 4, 5, 8, 16, 17, 32, 255)), b), (rng.randrange(13), a, b)):
        yield from both(table_bytes(ns[:i] + [node] + ns[i + 1:]))


def single_nodes(rng, orders):
    """Each kind by itself and over one child, with each a and b worth trying."""
    a, b = rng.choice((0, 1, 2, 3, 4, 8, 16, 17, 64, 255)), rng.choice((0, 0, 1, 2, 255, 256, 65535))
    child = draw.leaf(rng, orders)
    for kind in list(range(13)) + [255]:
        yield from both(table_bytes([(kind, a, b)]))
        yield from both(table_bytes([child, (kind, a, b)]))
        yield from both(table_bytes([child, (kind, 0, b)]))


def footprints(rng, orders):
    """2^31 - 1 is prime, so only sums reach it: 65535 x 32768 + 32767."""
    ns = [(3, 1, 0), (9, 0, 32768), (9, 1, 65535), (9, 0, rng.choice((32765, 32766, 32767, 32768))), (8, 2, 3)]
    for last in ((0, 0, 0), (6, 4, 0), (7, 4, 0), (8, 4, 0), (9, 4, 1), (9, 4, 2), (10, 4, 0)):
        yield from both(table_bytes(ns + [last]))
        yield from both(table_bytes(ns + [last, (3, 3, 0)]))        # 4 at a node comes before 3 at the next
    yield from both(table_bytes(draw.edge_nodes(rng)))


# ---------------------------------------------------------------- reading

def limits(rng, orders):
    root = rng.choice((None, 8, 10, 10))
    t, m = a_value(rng, orders, root=root)
    yield from at_limits(rng, orders, t, m.bytes)


def truncated(rng, orders):
    t, m = a_value(rng, orders)
    s, room = bytes(m.bytes), len(m.cells)
    for cut in sorted({len(s) - 1, 0} | {rng.randrange(len(s) + 1) for _ in range(8)}):
        yield read(rng, t, s[:max(cut, 0)], lent=room)
    cut = rng.randrange(len(s) + 1)
    yield read(rng, t, s[:cut], C=rng.randrange(room + 1), M=rng.randrange(100), lent=room + 1)


def faults(rng, orders):
    """Wrong tags, long forms, false counts; and any byte changed."""
    ns = draw.nodes(rng, orders)
    t = table_bytes(ns)
    for _ in range(6):
        m = draw.value(rng, ns, p=0.15, deep=rng.choice((0, 3)))
        if m:
            yield read(rng, t, m.bytes, lent=min(len(m.cells) + 2, 500))
            yield read(rng, t, draw.damage(rng, m.bytes), lent=min(len(m.cells) + 2, 500))


def long_heads(rng, orders):
    """A small count written long, for a vector and a bit vector, alone and inside."""
    n = rng.choice((0, 1, 2, 3, 63, 64, 65, 2**14 - 1, 2**14, 2**30 - 1, 2**30, 2**32 - 1))
    items = rng.randbytes(rng.choice((0, 3, n if n < 80 else 5)))
    tag = rng.choice((b"", b"\1"))
    for leafs in ([(3, 1, 0), (10, 0, 0)], [(11, 0, 0)]):
        ns = leafs + [(6, len(leafs) - 1, 0)] if tag else leafs
        for head in spellings(n):
            yield read(rng, table_bytes(ns), tag + head + items, lent=rng.choice((3, 5, 90)))


def compact_items(rng, orders):
    """A compact number in a message, in each spelling and cut: 10, 12 and 13 at its own place."""
    v, w = edge_number(rng), rng.choice(WIDTHS)
    ns, before, after = rng.choice((([(4, w, 0)], b"", b""), ([(4, w, 0), (3, 2, 0), (8, 1, 0)], b"\1\2", b""),
                                    ([(4, w, 0), (10, 0, 0)], b"\4", b"\0"), ([(4, w, 0), (9, 0, 2)], b"", b"\0")))
    t, room = table_bytes(ns), rng.choice((1, 2, 3, 4, 5))
    for s in spellings(v):
        yield read(rng, t, before + s + after, lent=room)
    own = compact(v)
    for cut in range(len(own)):
        yield read(rng, t, before + own[:cut], lent=room)


def refused_tables(rng, orders):
    """A refused table comes before all else, whatever the job is given."""
    t, m = a_value(rng, orders, root=rng.choice((None, 10)))
    for _ in range(4):
        bad = draw.bad_table(rng, orders)
        yield read(rng, bad, m.bytes, rng.choice((0, NO_D)), rng.choice((0, NO_M)), lent=rng.choice((0, len(m.cells))))
        yield write(rng, bad, m.cells, rng.choice((0, len(m.bytes))))
        yield append(rng, bad, m.bytes, len(m.bytes) + 8, rng.choice((0, 1, TOP)), m.cells, rng.choice((0, len(m.bytes), TOP)))


def large(rng, orders):
    """Many items: counts of two bytes and more cells than are lent."""
    n = rng.choice((62, 63, 64, 65, 255, 256, 300, 498, 499, 500, 501, 510, 511, 512))
    kind, size = rng.choice(((3, 1), (3, 2), (3, 4), (4, 1), (4, 8), (5, 4), (1, 0)))
    ns = [(kind, size, 0), (10, 0, 0)]
    m = draw.Maker(rng, ns, budget=4 * n)
    for _ in range(n):
        m.item(0)
    s, t = compact(n) + bytes(m.bytes), table_bytes(ns)
    for C in around(n + 1):
        yield read(rng, t, s, C=C, lent=min(C, 512))
    yield read(rng, t, s[:-1], C=n + 1)
    yield read(rng, t, s, M=n * (size or 1))
    yield read(rng, t, s, M=n * (size or 1) + 1)
    cells = ([n] + m.cells)[:512]
    for room in around(len(s)):
        yield write(rng, t, cells, room)


def units(rng, orders):
    """Items without bytes, up to and beyond what 64 bits count."""
    ns, s, n = draw.idle_case(rng)
    t, n = table_bytes(ns), min(n, TOP - 1)
    for C in around(n) + [0, 1, TOP]:
        yield read(rng, t, s, C=C, M=rng.choice((1, TOP)))
        yield read(rng, t, s, C=C, lent=min(C, 300))
    for D, M in ((0, 1), (1, 0), (1, 1)):
        yield read(rng, t, s, D, M, n)


def unit_towers(rng, orders):
    """A root without bytes: the message is empty, and each product may run over."""
    ns = [(0, 0, 0)]
    for _ in range(rng.choice((1, 2, 3, 4, 5, 6, 62))):
        i = len(ns) - 1
        ns.append(rng.choice(((8, i, i), (8, i, rng.randrange(i + 1)), (9, i, rng.choice((1, 2, 255, 256, 65535))))))
    t = table_bytes(ns)
    n = model.parse(t, orders)[-1].idle
    for C in around(min(n, TOP)) + [0, TOP]:
        yield read(rng, t, b"", C=C)
        yield read(rng, t, b"\7", C=C, lent=min(C, 200))
    yield write(rng, t, [0] * min(n, 300), 2)
    yield write(rng, t, [0] * min(n + 1, 300), 0)


def towers(rng, orders):
    """Vectors in vectors, some behind tags, down to a number, lanes or a unit."""
    n = rng.choice((1, 2, 3, 15, 16, 17, 30, 61, 62, 63))
    ns = [rng.choice(((3, 1, 0), (11, 0, 0), (0, 0, 0), (4, 4, 0)))]
    s = {3: b"\7", 11: b"\x0c\5", 0: b"", 4: b"\xfc"}[ns[0][0]]
    while len(ns) < 64 and n > 0:
        i = len(ns) - 1
        if n < 30 and rng.random() < 0.2 and len(ns) < 62:
            ns.append((6, i, 0))
            s = b"\1" + s
        else:
            ns.append((10, i, 0))
            s = b"\4" + s
            n -= 1
    yield from at_limits(rng, orders, table_bytes(ns), s)
    yield from at_limits(rng, orders, table_bytes(ns), s[:rng.randrange(len(s))] + b"\0")


def saturation(rng, orders):
    """Heads that claim 2^32 - 1 items of nearly 2^31 bytes each, one inside the other: three of them
    are beyond 2^64, and every M refuses a total that saturates."""
    levels = rng.randrange(1, 6)
    ns = [(3, 1, 0), (9, 0, 32768), (9, 1, 65535), (10, 2, 0)]
    for _ in range(levels):
        ns += [(7, 2, len(ns) - 1), (10, len(ns), 0)]
    count = rng.choice((2**32 - 1, 2**32 - 1, 2**32 - 1, 2**31, 2**30, 64))
    head = compact(count)
    s = (head + b"\1") * levels + head
    t = table_bytes(ns)
    charges = model.parse(t, orders)
    total = 0
    for i in range(len(ns) - 1, 2, -2):
        total += count * charges[ns[i][1]].foot
        for M in (total - 1, total, total + 1):
            yield read(rng, t, s, M=M)
    yield read(rng, t, s, M=TOP, lent=rng.randrange(9))
    yield read(rng, t, s, D=rng.randrange(levels + 2), M=TOP)


def lanes(rng, orders):
    """Bit vectors: counts round words and bytes, padding, the bound on bits, room and bytes one short."""
    n = rng.choice(draw.BITS + (191, 192, 193, 255, 256, 257, 1023, 1024, 1025))
    bits = rng.choice((0, (1 << n) - 1, rng.getrandbits(n) if n else 0))
    size, words = -(-n // 8), -(-n // 64)
    pad = rng.getrandbits(8 * size - n) if 8 * size > n else 0
    ns, before, after = rng.choice((([(11, 0, 0)], b"", b""), ([(11, 0, 0), (10, 0, 0)], b"\4", b""),
                                    ([(3, 1, 0), (11, 0, 0), (8, 1, 0)], b"", b"\x2a")))
    t = table_bytes(ns)
    extra = 1 if len(ns) > 1 else 0     # the cell of the count around it, or of the byte beside it
    raw = bits.to_bytes(size, "little")
    padded = (bits | pad << n).to_bytes(size, "little")
    for body in (raw, padded):
        s = before + compact(n) + body + after
        for room in around(1 + words + extra):
            yield read(rng, t, s, lent=room)
        yield read(rng, t, s[:-1], lent=1 + words + extra)
        yield read(rng, t, s, M=size, lent=1 + words + extra)
        yield read(rng, t, s, M=size + 1, lent=1 + words + extra)
        yield read(rng, t, s, D=rng.randrange(3), lent=2 + words + extra)
    for count in (0x1FFFFFFE, 0x1FFFFFFF, 0x20000000, 2**30 - 1, 2**30, 2**32 - 1):
        s = before + compact(count) + raw
        yield read(rng, t, s)
        yield read(rng, t, s, D=0)
        yield read(rng, t, s, M=count // 8)
        yield read(rng, t, s, C=rng.randrange(5))
        yield write(rng, table_bytes([(11, 0, 0)]), [count] + model.bit_cells(bits, n), 80)
    # writing: a bit past n (21, but 20 if a cell is missing too), a cell too few, a cell too many
    t, cells = table_bytes([(11, 0, 0)]), [n] + model.bit_cells(bits, n)
    for room in around(len(compact(n)) + size):
        yield write(rng, t, cells, room)
    if n % 64:
        for bit in (n % 64, 63):
            yield write(rng, t, cells[:-1] + [cells[-1] | 1 << bit], size + 9)
            yield write(rng, t, cells[:-2] + [cells[-1] | 1 << bit] if n > 64 else cells[:1], size + 9)
    yield write(rng, t, cells[:-1], size + 9)
    yield write(rng, t, cells + [0], size + 9)


def weights(rng, orders):
    """Floats of every sort, read, written and appended with all their bits."""
    w = rng.choice((4, 8))
    floats = [draw.float_bits(rng, w) for _ in range(rng.randrange(1, 6))]
    ns = [(5, w, 0), (10, 0, 0)]
    raw = b"".join(f.to_bytes(w, "little") for f in floats)
    t, s = table_bytes(ns), compact(len(floats)) + raw
    yield read(rng, t, s, lent=len(floats) + 1)
    yield read(rng, table_bytes(ns[:1]), raw[:w], lent=1)
    yield write(rng, t, [len(floats)] + floats, len(s))
    yield append(rng, t, b"", len(s), len(floats), floats)
    yield append(rng, t, s, len(s) + w, 1, [draw.float_bits(rng, w)])
    yield write(rng, table_bytes(ns[:1]), [2 ** (8 * w) if w < 8 else TOP], w)


# ---------------------------------------------------------------- writing

def outputs(rng, orders):
    t, m = a_value(rng, orders, root=rng.choice((None, None, 10)))
    for room in around(len(m.bytes)) + [0, len(m.bytes) + 40]:
        yield write(rng, t, m.cells, room)
    for cells in wrong_cells(rng, orders, t, m.cells):
        yield write(rng, t, cells, rng.choice((len(m.bytes), len(m.bytes) + 20, 0)))


def there_and_back(rng, orders):
    """What was read is written, what was written is read, with no room to spare."""
    ns = draw.nodes(rng, orders)
    m = draw.value(rng, ns, p=rng.choice((0, 0.05)), deep=rng.choice((0, 2)))
    if not m:
        return
    t, s = table_bytes(ns), bytes(m.bytes)
    x = draw.exact(t, s, orders)
    if x["number"] or x["cells"] > 500:
        return
    cells = model.read(t, s, model.NEST, NO_M, TOP, [0] * x["cells"], False, orders=orders)["out"]
    yield read(rng, t, s, lent=len(cells))
    yield write(rng, t, cells, x["bytes"])
    again = model.write(t, cells, bytes(x["bytes"]), orders=orders)["out"]
    yield read(rng, t, again, lent=len(cells), whole=1)
    yield 4, dict(table=t)


# ---------------------------------------------------------------- append

def appends(rng, orders):
    ns = draw.nodes(rng, orders, root=10)
    t, child = table_bytes(ns), ns[-1][1]
    old = rng.choice(draw_jobs.HEADS)
    tail = rng.randbytes(rng.choice((0, 1, 7, 63, 140)))
    k = rng.choice((0, 1, 1, 2, 3, 4))
    m = draw.value(rng, ns, child, depth=1, times=k, budget=80)
    if not m:
        return
    cells, head = list(m.cells), compact(old)
    s = head + tail
    full = len(compact(min(old + k, 2**32 - 1))) + len(tail) + len(m.bytes)
    # the buffer exactly full, one short, one to spare; and filled from nothing
    for room in around(full) + [len(s), full + 30]:
        yield append(rng, t, s, max(room, len(s)), k, cells)
    fresh = len(compact(k)) + len(m.bytes)
    for room in around(fresh):
        yield append(rng, t, b"", room, k, cells)
    yield append(rng, t, s, full + 9, 0, [])
    yield append(rng, t, s, full + 9, 0, cells)
    yield append(rng, t, s, full + 9, k, cells, used=0)
    # used: beyond the buffer; and the head only in part
    for used in (full + 9, full + 10, full + 11, TOP):
        yield append(rng, t, s, full + 10, k, cells, used)
    yield append(rng, t, s, full + 9, k, cells, used=rng.randrange(len(s) + 1))
    yield append(rng, t, head[:-1], full + 9, k, cells)
    # k: the sum at 2^32 - 1, one above, and where 32 or 64 bits would wrap
    for many in (2**32 - 1 - old, 2**32 - old, 2**32 - 1, 2**32, 2**32 + 1, 2**32 + k, TOP, 2**64 - max(old, 1)):
        yield append(rng, t, s, full + 9, many, cells)
    yield append(rng, t, b"", fresh + 9, rng.choice((2**32 - 1, 2**32, 2**32 + k, TOP)), cells)
    # the old count in another form
    for other in spellings(old):
        yield append(rng, t, other + tail, full + 20, k, cells)
    for wrong in wrong_cells(rng, orders, t, cells, k, child=True) if k else ():
        yield append(rng, t, s, full + 9, k, wrong)
    # another root: 30 comes before all
    yield append(rng, table_bytes(ns + [(6, len(ns) - 1, 0)]), s, full + 9, k, cells, rng.choice((0, len(s), TOP)))


def growing_heads(rng, orders):
    """A vector of bytes grown over the edge of its head, whole and exactly full."""
    old = rng.choice((62, 63, 64))
    k = rng.choice((0, 1, 2))
    items = rng.randbytes(old)
    cells = [rng.randrange(256) for _ in range(k)]
    t = table_bytes([(3, 1, 0), (10, 0, 0)])
    s = compact(old) + items
    full = len(compact(old + k)) + old + k
    for room in around(full):
        yield append(rng, t, s, max(room, len(s)), k, cells)
    big = rng.choice((16382, 16383, 2**30 - 2, 2**30 - 1))      # the old bytes aren't looked at
    s = compact(big) + items
    full = len(compact(big + k)) + old + k
    for room in around(full):
        yield append(rng, t, s, max(room, len(s)), k, cells)


# ---------------------------------------------------------------- all of them

FAMILIES = {compact_numbers: 4, tables: 2, single_nodes: 1, footprints: 1, limits: 8, truncated: 4, faults: 4,
            long_heads: 2, compact_items: 3, refused_tables: 2, large: 1, units: 2, unit_towers: 1, towers: 1,
            saturation: 1, lanes: 3, weights: 2, outputs: 5, there_and_back: 5, appends: 4, growing_heads: 2}
WITH_ORDER = {10: edges_10.FAMILIES}


def cases(rng, orders):
    shares = dict(FAMILIES)
    for order, more in WITH_ORDER.items():
        if order in orders:
            shares.update(more)
    no_depth = model.NEST if 10 in orders else 2**32 - 1
    while True:
        for op, takes in rng.choices(list(shares), list(shares.values()))[0](rng, orders):
            if "D" in takes and takes["D"] is NO_D:
                takes["D"] = no_depth
            yield op, takes
