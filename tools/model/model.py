"""A plain model of docs/RULES.md: what each job answers, and what it leaves in lent memory.

It is slow on purpose, so that it can be read beside the rules; it shares nothing with the Rattle
code and its proofs. docs/DECISIONS.md says how open points are settled: "(5)" in a comment is its
point 5.

orders is a set of the Orders, the changes that tools/README.md lists: those that hold. NONE is the
rules before the first of them, LANDED the rules as docs/RULES.md has them. Where an Order speaks of
the number, field or rule of another one, that part holds if both are in the set. The jobs that
come with Orders are in later.py.

Every job gives a dict with its answer's fields, and lent memory as it is afterwards.
"""
import sys

sys.setrecursionlimit(100000)      # each level of nesting is some calls here

SEQUENCE = (10, 2, 3, 5, 1, 12, 6, 9, 8, 4, 11, 7, 13)     # in which the Orders land
NONE = frozenset()
LANDED = frozenset()

TOP = 2**64 - 1                    # sums saturate here
MAXBITS = 0x1FFFFFFF
MAXCOUNT = 2**32 - 1
NEST = 64                          # Order 10: the deepest nesting
LIMITS = (16, 65536, 4096)         # the program's D, M and C


def orders_named(text):
    """'10,2,3' as a set of Orders; 'none' is the empty one."""
    if text == "none":
        return NONE
    found = [int(word) if word.isdigit() else 0 for word in text.split(",")]
    if len(set(found)) < len(found) or not set(SEQUENCE).issuperset(found):
        raise ValueError(f"not a list of Orders such as 10,2,3, nor none: {text}")
    return frozenset(found)


def orders_option(argv):
    """The arguments without --orders=10,2,3, and the set that it names, LANDED if it isn't there."""
    named = [a.partition("=")[2] for a in argv if a.startswith("--orders=")]
    try:
        return [a for a in argv if not a.startswith("--orders=")], orders_named(named[-1]) if named else LANDED
    except ValueError as e:
        sys.exit(str(e))


def name_of(orders):
    """The text that orders_named reads, in the sequence of landing."""
    return ",".join(str(n) for n in SEQUENCE if n in orders) or "none"


class Refused(Exception):
    """wanted: the bytes that the item needs, with a 10 (Order 3)."""

    def __init__(self, number, place=0, wanted=0):
        self.number, self.place, self.wanted = number, place, wanted


# ---------------------------------------------------------------- compact numbers

def form_size(first):
    """Bytes of the whole compact number, from its first byte."""
    return (1, 2, 4, (first >> 2) + 5)[first & 3]


def compact_at(width, s):
    """(value, used), or raises Refused with place 0."""
    if not s:
        raise Refused(10, 0, 1)
    form, size = s[0] & 3, form_size(s[0])
    if (width == 1 and form >= 2) or (width == 2 and form == 3):
        raise Refused(12)
    if form == 3 and size - 1 > max(width, 4):
        raise Refused(13 if width == 4 else 12)
    if len(s) < size:
        raise Refused(10, 0, size)
    if form == 3:
        value = int.from_bytes(s[1:size], "little")
        low = 2**30 if size == 5 else 2 ** (8 * (size - 2))
    else:
        value = int.from_bytes(s[:size], "little") >> 2
        low = (0, 2**6, 2**14)[form]
    if value < low or value >= 2 ** (8 * width):
        raise Refused(13)
    return value, size


def wanted(r, orders):
    """Order 3's field in a refused answer: 0 unless the number is 10."""
    return r.wanted if 3 in orders else 0


def compact_read(width, s, *, orders):
    try:
        value, used = compact_at(width, s)
        return dict(number=0, value=value, used=used, wanted=0)
    except Refused as r:
        return dict(number=r.number, value=0, used=0, wanted=wanted(r, orders))


def compact_write(width, v):
    assert 0 <= v < 2 ** (8 * width)
    if v < 2**6:
        return bytes([v << 2])
    if v < 2**14:
        return (v << 2 | 1).to_bytes(2, "little")
    if v < 2**30:
        return (v << 2 | 2).to_bytes(4, "little")
    size = (v.bit_length() + 7) // 8
    return bytes([(size - 4) << 2 | 3]) + v.to_bytes(size, "little")


# ---------------------------------------------------------------- the type table

class Node:
    """kind, a, b; foot: footprint; idle: cells of an item that takes no bytes, else 0."""

    def __init__(self, kind, a, b):
        self.kind, self.a, self.b, self.foot, self.idle = kind, a, b, 0, 0


def node_ok(n, i, count, version, orders):
    a, b = n.a, n.b
    if n.kind in (0, 1):
        return a == 0 and b == 0
    if n.kind == 2:
        return a == 0 and b == 0 and version == 1
    if n.kind in (3, 4):
        return a in (1, 2, 4, 8, 16) and b == 0
    if n.kind == 5:
        return a in (4, 8) and b == 0
    if n.kind == 6:
        return a < i and b == 0
    if n.kind in (7, 8):
        return a < i and b < i
    if n.kind == 9:
        return a < i and b >= 1
    if n.kind == 10:
        return a < (count if 10 in orders else i) and b == 0
    if n.kind == 11:
        return a in (0, 1, 2, 4, 8) and b in (0, 1) if 9 in orders else a == 0 and b == 0
    return False


def footprint(n, nodes, orders):
    kind = n.kind
    if kind == 0:
        return 0
    if kind in (1, 2):
        return 1
    if kind in (3, 4, 5):
        return n.a
    if kind in (10, 11):
        return 24
    a = nodes[n.a].foot
    if kind == 6:
        return 1 + a
    if kind == 9:
        return n.b * a
    b = nodes[n.b].foot
    if kind == 8:
        return a + b
    return 1 + (max(a, b) if 2 in orders else a + b)


def idle_cells(n, nodes):
    if n.kind == 0:
        return 1
    if n.kind == 8 and nodes[n.a].idle and nodes[n.b].idle:
        return nodes[n.a].idle + nodes[n.b].idle
    if n.kind == 9:
        return n.b * nodes[n.a].idle
    return 0


def parse(table, orders):
    """The nodes of a table that passes its checks; raises 1, 2, 3 or 4."""
    if len(table) < 6 or table[:3] != b"WTD":
        raise Refused(1)
    version = int.from_bytes(table[3:5], "little")
    if version not in ((1, 2) if 8 in orders else (1,)):
        raise Refused(1)
    count = table[5]
    if not 1 <= count <= 64 or len(table) != 6 + 4 * count:
        raise Refused(2)
    nodes = []
    for i in range(count):                      # (5): node by node, 3 before 4
        q = table[6 + 4 * i:10 + 4 * i]
        n = Node(q[0], q[1], q[2] | q[3] << 8)
        if not node_ok(n, i, count, version, orders):
            raise Refused(3, i)
        n.foot, n.idle = footprint(n, nodes, orders), idle_cells(n, nodes)
        if n.foot > 2**31 - 1:
            raise Refused(4, i)
        nodes.append(n)
    return nodes


def no_optionbool(nodes, orders):
    """Order 8: 24 for writing under a table with kind 2 (a table of version 2 has none)."""
    if 8 in orders:
        for i, n in enumerate(nodes):
            if n.kind == 2:
                raise Refused(24, i)


def not_too_deep(D, orders):
    """Order 10: 35 for every job that takes D, whatever the table; 64 itself is good."""
    if 10 in orders and D > NEST:
        raise Refused(35)


def check_table(table, *, orders):
    try:
        parse(table, orders)
        return dict(number=0, place=0)
    except Refused as r:
        return dict(number=r.number, place=r.place)


def longest(table, *, orders):
    try:
        nodes = parse(table, orders)
    except Refused as r:
        return dict(number=r.number, place=r.place, has=0, length=0)
    lengths = []                                 # None: it has none
    for n in nodes:
        if n.kind in (10, 11):
            lengths.append(None)
            continue
        if n.kind in (0, 1, 2, 3, 5):
            lengths.append({0: 0, 1: 1, 2: 1}.get(n.kind, n.a))
            continue
        if n.kind == 4:
            lengths.append({1: 2, 2: 4, 4: 5, 8: 9, 16: 17}[n.a])
            continue
        a = lengths[n.a]
        b = lengths[n.b] if n.kind in (7, 8) else 0
        if a is None or b is None:
            lengths.append(None)
        else:
            lengths.append({6: 1 + a, 7: 1 + max(a, b), 8: a + b, 9: n.b * a}[n.kind])
    last = lengths[-1]
    return dict(number=0, place=0, has=0 if last is None else 1, length=last or 0)


# ---------------------------------------------------------------- bits

def flip(raw, w, high):
    """Words of w bytes to a number whose bit i is bit i of the bit vector (and back)."""
    if not high:
        return int.from_bytes(raw, "little")
    turned = bytes(int(format(byte, "08b")[::-1], 2) for byte in raw)
    return int.from_bytes(b"".join(turned[j:j + w][::-1] for j in range(0, len(raw), w)), "little")


def word(n):
    """Word size in bytes, and whether bits count from the top (without Order 9: one byte, no)."""
    return (n.a or 1), n.b == 1


def bit_bytes(n, bits):
    w, _ = word(n)
    return -(-bits // (8 * w)) * w


def bit_cells(value, bits):
    return [value >> (64 * j) & TOP for j in range(-(-bits // 64))]


# ---------------------------------------------------------------- reading

class Walk:
    """One reading. cells (when kept) holds what is finished, also after a refusal, and of a bit
    vector refused after its room check what Order 1 leaves written."""

    def __init__(self, nodes, s, D, M, C, orders, keep):
        self.nodes, self.s, self.D, self.M, self.C, self.orders = nodes, s, D, M, C, orders
        self.count, self.charge, self.depth = 0, 0, 0
        self.cells = [] if keep else None

    def run(self):
        return self.item(len(self.nodes) - 1, 0, 0)

    def give(self, *cells):
        self.count += len(cells)
        if self.cells is not None:
            self.cells.extend(cells)

    def room(self, n, at):
        if self.count + n > self.C:
            raise Refused(17, at)

    def idle(self, n, at):
        """n cells 0 of items without bytes, one after another."""
        fit = min(n, self.C - self.count)
        self.count += fit
        if self.cells is not None:
            self.cells.extend([0] * fit)
        if fit < n:
            raise Refused(17, at)

    def take(self, n, at):
        if len(self.s) - at < n:
            raise Refused(10, at, n)
        return int.from_bytes(self.s[at:at + n], "little")

    def compact(self, width, at):
        try:
            return compact_at(width, self.s[at:at + 68])     # no form is longer than 68 bytes
        except Refused as r:
            raise Refused(r.number, at, r.wanted)

    def pay(self, charge, at):
        self.charge = min(self.charge + charge, TOP)
        if self.charge >= self.M:
            raise Refused(16, at)

    def enter(self, depth, charge, at):
        if depth > self.D:
            raise Refused(15, at)
        self.pay(charge, at)
        self.depth = max(self.depth, depth)

    def leave(self):
        """Ends what enter began. Nothing to do: depths are handed down."""

    def scalar(self, value, width, at):
        if width == 16:
            self.room(2, at)
            self.give(value & TOP, value >> 64)
        else:
            self.room(1, at)
            self.give(value)

    def item(self, i, at, depth):
        """Reads node i at offset at, inside depth vectors; the offset after it."""
        n = self.nodes[i]
        kind = n.kind
        if n.idle:
            self.idle(n.idle, at)
            return at
        if kind in (3, 5):
            self.scalar(self.take(n.a, at), n.a, at)
            return at + n.a
        if kind == 4:
            value, used = self.compact(n.a, at)
            self.scalar(value, n.a, at)
            return at + used
        if kind in (1, 2, 6, 7):
            tag = self.take(1, at)
            if tag > (2 if kind == 2 else 1):
                raise Refused(11, at)
            self.room(1, at)
            self.give(tag)
            if kind in (1, 2) or (kind == 6 and tag == 0):
                return at + 1
            return self.item(n.b if kind == 7 and tag == 1 else n.a, at + 1, depth)
        if kind == 8:
            return self.item(n.b, self.item(n.a, at, depth), depth)
        if kind == 9:
            return self.items(n.a, n.b, at, depth)
        if kind == 10:
            count, used = self.compact(4, at)
            self.enter(depth + 1, count * self.nodes[n.a].foot, at)
            self.room(1, at)
            self.give(count)
            end = self.items(n.a, count, at + used, depth + 1)
            self.leave()
            return end
        return self.bits(n, at, depth)

    def items(self, i, count, at, depth):
        if self.nodes[i].idle:
            self.idle(count * self.nodes[i].idle, at)
            return at
        for _ in range(count):
            at = self.item(i, at, depth)
        return at

    def bits(self, n, at, depth):
        bits, used = self.compact(4, at)
        if bits > MAXBITS:
            raise Refused(14, at)
        w, high = word(n)
        size = bit_bytes(n, bits)
        self.enter(depth + 1, size, at)
        self.room(1 + -(-bits // 64), at)
        raw = self.s[at + used:at + used + size]
        value = flip(raw[:len(raw) // w * w], w, high)
        refusal = None
        if len(raw) < size:
            refusal, words = Refused(10, at, used + size), len(raw) // w
        elif 5 in self.orders and value >> bits:
            refusal, words = Refused(19, at), size // w - 1
        if refusal:
            taken = 8 * w * words                      # below bits
            self.give(bits, *bit_cells(value & ((1 << taken) - 1), taken))
            raise refusal
        self.give(bits, *bit_cells(value & ((1 << bits) - 1), bits))
        self.leave()
        return at + used + size


def accepted(walk, end):
    return dict(number=0, place=0, bytes=end, cells=walk.count, charge=walk.charge, depth=walk.depth, wanted=0)


def refused(r, orders):
    return dict(number=r.number, place=r.place, bytes=0, cells=0, charge=0, depth=0, wanted=wanted(r, orders))


def over(cells, new):
    return list(new) + list(cells[len(new):])


def read(table, s, D, M, C, lent, whole, *, orders):
    """lent: the cells, or None for a job that lends none."""
    try:
        nodes = parse(table, orders)
        not_too_deep(D, orders)
        if lent is not None:
            C = min(C, len(lent))
        walk = Walk(nodes, s, D, M, C, orders, lent is not None)
        end = walk.run()
        if whole and end < len(s):
            raise Refused(18, end)
    except Refused as r:
        return dict(refused(r, orders), out=None if lent is None else list(lent))
    return dict(accepted(walk, end), out=None if lent is None else over(lent, walk.cells))


# ---------------------------------------------------------------- writing

class Pen:
    """Takes cells in order and gives bytes."""

    def __init__(self, nodes, cells, orders):
        self.nodes, self.cells, self.orders = nodes, cells, orders
        self.at, self.bytes = 0, bytearray()

    def cell(self, below=2**64, number=21):
        if self.at >= len(self.cells):
            raise Refused(20, len(self.cells))
        v = self.cells[self.at]
        if v >= below:
            raise Refused(number, self.at)
        self.at += 1
        return v

    def wide(self, width):
        if width == 16:
            low = self.cell()
            return low | self.cell() << 64
        return self.cell(2 ** (8 * width))

    def nest(self, depth):
        """Order 10: 15 after the count cell's own checks; bit vectors count as vectors do."""
        if 10 in self.orders and depth > NEST:
            raise Refused(15, self.at - 1)

    def item(self, i, depth):
        n = self.nodes[i]
        kind = n.kind
        if kind == 0:
            self.cell(1)
        elif kind in (1, 2):
            self.bytes.append(self.cell(2 if kind == 1 else 3))
        elif kind in (3, 5):
            self.bytes += self.wide(n.a).to_bytes(n.a, "little")
        elif kind == 4:
            self.bytes += compact_write(n.a, self.wide(n.a))
        elif kind in (6, 7):
            tag = self.cell(2)
            self.bytes.append(tag)
            if kind == 7 or tag == 1:
                self.item(n.b if kind == 7 and tag == 1 else n.a, depth)
        elif kind == 8:
            self.item(n.a, depth)
            self.item(n.b, depth)
        elif kind == 9:
            for _ in range(n.b):
                self.item(n.a, depth)
        elif kind == 10:
            count = self.cell(MAXCOUNT + 1)
            self.nest(depth + 1)
            self.bytes += compact_write(4, count)
            for _ in range(count):
                self.item(n.a, depth + 1)
        else:
            self.lanes(n, depth)

    def lanes(self, n, depth):
        bits = self.cell(MAXBITS + 1, 14)
        self.nest(depth + 1)
        k = -(-bits // 64)
        if len(self.cells) - self.at < k:
            raise Refused(20, len(self.cells))
        value = int.from_bytes(b"".join(c.to_bytes(8, "little") for c in self.cells[self.at:self.at + k]), "little")
        if value >> bits:
            raise Refused(21, self.at + k - 1)
        self.at += k
        w, high = word(n)
        raw = value.to_bytes(bit_bytes(n, bits), "little")
        self.bytes += compact_write(4, bits)
        self.bytes += flip(raw, w, high).to_bytes(len(raw), "little")

    def end(self):
        if self.at < len(self.cells):
            raise Refused(23, self.at)
        return bytes(self.bytes)


def into(buf, new):
    if len(new) > len(buf):
        raise Refused(22)
    return new + buf[len(new):]


def write(table, cells, out, *, orders):
    try:
        nodes = parse(table, orders)
        no_optionbool(nodes, orders)
        pen = Pen(nodes, cells, orders)
        pen.item(len(nodes) - 1, 0)
        new = pen.end()
        return dict(number=0, place=0, length=len(new), out=into(out, new))
    except Refused as r:
        return dict(number=r.number, place=r.place, length=0, out=out)


# ---------------------------------------------------------------- append

def vector_root(nodes):
    """The node of the root's items."""
    root = nodes[-1]
    if root.kind != 10:
        raise Refused(30)
    return nodes[root.a]


def old_count(buf, used):
    """(count, bytes of the head) of what is there."""
    if used > len(buf):
        raise Refused(31)
    if used == 0:
        return 0, 0
    try:
        return compact_at(4, buf[:used])
    except Refused:
        raise Refused(32)


def appended(nodes, buf, used, k, cells, orders, also=lambda old: None):
    """(used, buf); also: a further check of the old count, after 33 (Order 4)."""
    old, head = old_count(buf, used)
    if old + k > MAXCOUNT:
        raise Refused(33)
    also(old)
    pen = Pen(nodes, cells, orders)
    for _ in range(k):
        pen.item(nodes[-1].a, 1)
    new = compact_write(4, old + k) + buf[head:used] + pen.end()
    return len(new), into(buf, new)


def append(table, buf, used, k, cells, *, orders):
    try:
        nodes = parse(table, orders)
        no_optionbool(nodes, orders)
        vector_root(nodes)
        used1, buf1 = appended(nodes, buf, used, k, cells, orders)
        return dict(number=0, place=0, used=used1, buf=buf1)
    except Refused as r:
        return dict(number=r.number, place=r.place, used=0, buf=buf)


# ---------------------------------------------------------------- the program

def refused_line(number, place):
    return "refused %d %d\n" % (number, place)


def file_of(files, name, most):
    if name not in files or len(files[name]) > most:
        raise Refused(40)
    return files[name]


def plan_files(files):
    return file_of(files, "wave.wtd", 262), file_of(files, "wave.scl", 32768)


def program(files, *, orders, limits=LIMITS):
    """All that `wave` prints. files: those that are there, by name."""
    try:
        table, message = plan_files(files)
    except Refused as r:
        return refused_line(r.number, r.place)
    got = read(table, message, *limits, [0] * 4096, True, orders=orders)
    if got["number"]:
        return refused_line(got["number"], got["place"])
    lines = ["ok %d %d %d %d" % (got["bytes"], got["cells"], got["charge"], got["depth"])]
    lines += [str(c) for c in got["out"][:got["cells"]]]
    return "".join(line + "\n" for line in lines)
