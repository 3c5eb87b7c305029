#!/usr/bin/env python3
"""confirm.py FILE.hrv... [--orders=ORDERS]    compares the cases of files with the crate's own text

For each case that the crate can answer: acceptance, value, bytes used and bytes written, longest
length, and the number of a refusal where the crate's message has one (NUM). What the crate has no
counterpart for is counted by its reason. The last line is 'N compared, M differ'; it exits with 1
if M isn't 0. README.md says what each answer of the oracle rests on. ORDERS are those of the files,
10,2,3 for one, or none; left out, it is those that have landed.
"""
import os
import sys
from collections import Counter
from itertools import islice

from ask import ask, there
import hrv
from model import LANDED, NEST, SEQUENCE, orders_option

BATCH = 5000                    # cases asked at a time
SHOWN = 20                      # differences printed, the smallest first
TOP = 2**64 - 1
NO_LIMITS = f"{2**32 - 1} {TOP}"
LARGEST_ITEM = 16384            # of a vector in the crate, in bytes of Rust memory

# The number for each message of the crate (the innermost cause).
NUM = {
    "Not enough data to fill buffer": 10,
    "Not enough data to decode vector": 10,
    "Invalid boolean representation": 11,
    "unexpected first byte decoding OptionBool": 11,
    "unexpected first byte decoding Option": 11,
    "unexpected first byte decoding Result": 11,
    **{f"unexpected prefix decoding Compact<u{n}>": 12 for n in (8, 16, 64, 128)},
    **{f"out of range decoding Compact<u{n}>": 13 for n in (8, 16, 32, 64, 128)},
    "Attempt to decode a BitVec with too many bits": 14,
    "Input buffer has still data left after decoding!": 18,
    "Attempted to serialize a collection with too many elements.": 33,
    "cannot append new items into a SCALE-encoded vector: length overflow due to too many items": 33,
}


# ---------------------------------------------------------------- tables and cells

class Table:
    """A table that passes its checks (only what this script relies on is checked again)."""

    def __init__(self, table, orders):
        self.hex = table.hex()
        self.nodes = [(table[i], table[i + 1], table[i + 2] | table[i + 3] << 8)
                      for i in range(6, len(table), 4)]
        self.root = len(self.nodes) - 1
        self.foot, self.size = [], []           # the rules' footprint; the least size in Rust
        for i, (kind, a, b) in enumerate(self.nodes):
            if any(child >= (len(self.nodes) if kind == 10 and 10 in orders else i) for child in self.children(i)):
                raise IndexError
            self.foot.append(self.measure(self.foot, kind, a, b, 1, max if 2 in orders else sum))
            self.size.append(self.measure(self.size, kind, a, b, 0, max))
        self.reached, left = {self.root}, [self.root]
        while left:
            new = set(self.children(left.pop())) - self.reached
            self.reached |= new
            left += new
        self.kinds = {self.nodes[i][0] for i in self.reached}
        self.upward = any(self.nodes[i][0] == 10 and self.nodes[i][1] >= i for i in self.reached)

    def children(self, i):
        kind, a, b = self.nodes[i]
        return {6: (a,), 7: (a, b), 8: (a, b), 9: (a,), 10: (a,)}.get(kind, ())

    @staticmethod
    def measure(done, kind, a, b, tag, either):
        if kind in (6, 9):
            return tag + done[a] if kind == 6 else b * done[a]
        if kind in (7, 8):
            return tag + either((done[a], done[b])) if kind == 7 else done[a] + done[b]
        return {0: 0, 1: 1, 2: 1, 10: 24, 11: 24}.get(kind, a)

    def largest_item(self):
        """At least so many bytes of Rust memory for an item of some vector."""
        return max((self.size[self.nodes[i][1]] for i in self.reached if self.nodes[i][0] == 10), default=0)

    def plain(self):
        """What the table says, however it says it: nodes of one type are one, and none is unreached. So
        tables of the same type have the same plain form."""
        if len(self.reached) > 12:              # no fixed type is as large
            return None
        sort = dict.fromkeys(self.reached, 0)   # nodes of one sort look alike, so many steps down
        while True:
            found = {i: self.look(i, sort) for i in sorted(self.reached)}
            sorts = {look: n for n, look in enumerate(dict.fromkeys(found.values()))}
            if len(sorts) == len(set(sort.values())):
                break
            sort = {i: sorts[look] for i, look in found.items()}
        place, form = {}, []                    # of each sort, as it is met from the root

        def meet(i):
            if sort[i] not in place:
                place[sort[i]] = len(form)
                form.append(i)
                for child in self.children(i):
                    meet(child)

        meet(self.root)
        return tuple(self.look(i, {j: place[sort[j]] for j in self.reached}) for i in form)

    def look(self, i, sort):
        """A node's kind and numbers, and the sorts of its children."""
        kind, a, b = self.nodes[i]
        return kind, a if kind in (3, 4, 5, 11) else 0, b if kind in (9, 11) else 0, tuple(sort[c] for c in self.children(i))


class Walk:
    """Goes through the cells of count items of node i: their nesting, charge and length in bytes,
    and which cells and bytes hold nothing but the bits of bit vectors."""

    def __init__(self, table, cells, i, count=1):
        self.t, self.cells = table, cells
        self.at = self.bytes = self.depth = self.charge = 0
        self.bit_cells, self.bit_bytes = set(), set()
        for _ in range(count):
            self.item(i, 1)

    def cell(self):
        self.at += 1
        return self.cells[self.at - 1]

    def enter(self, depth, charge):
        self.depth = max(self.depth, depth)
        self.charge = min(self.charge + charge, TOP)

    def item(self, i, depth):
        kind, a, b = self.t.nodes[i]
        if kind in (3, 4):
            v = self.cell() if a < 16 else self.cell() | self.cell() << 64
            self.bytes += a if kind == 3 else compact_len(v)
        elif kind <= 5:
            self.cell()
            self.bytes += {0: 0, 5: a}.get(kind, 1)
        elif kind in (6, 7):
            tag = self.cell()
            self.bytes += 1
            if kind == 7 or tag:
                self.item(b if kind == 7 and tag else a, depth)
        elif kind == 8:
            self.item(a, depth)
            self.item(b, depth)
        elif kind == 9:
            for _ in range(b):
                self.item(a, depth)
        elif kind == 10:
            n = self.cell()
            self.bytes += compact_len(n)
            self.enter(depth, n * self.t.foot[a])
            for _ in range(n):
                self.item(a, depth + 1)
        else:
            n = self.cell()
            self.bytes += compact_len(n)
            words, size = -(-n // 64), -(-n // 8)
            self.enter(depth, size)
            if self.at + words > len(self.cells):
                raise IndexError
            self.bit_cells.update(range(self.at, self.at + words))
            self.bit_bytes.update(range(self.bytes, self.bytes + size))
            self.at += words
            self.bytes += size


def compact_len(v):
    for bits, size in ((6, 1), (14, 2), (30, 4)):
        if v < 2**bits:
            return size
    return 1 + max(4, (v.bit_length() + 7) // 8)


def without(s, places):
    return [x for i, x in enumerate(s) if i not in places]


def hx(b):
    return b.hex() or "-"


def jn(cells):
    return ",".join(map(str, cells)) or "-"


def cells_of(text):
    return () if text == "-" else tuple(map(int, text.split(",")))


# ---------------------------------------------------------------- replies and cases

class Reply:
    """An answer of the oracle. words: those after ok, or None. number: that of a refusal, -1 if its
    message has none. declined: why the oracle, and not the crate, gave no answer."""

    def __init__(self, text, skip):
        """skip: words between err and the message."""
        self.text = text if len(text) < 200 else text[:200] + "..."
        head, *words = text.split(" ")
        self.words = words if head == "ok" else None
        self.number, self.declined = 0, None
        if head != "ok":
            message = " ".join(words[skip:] if head == "err" else words).split(" | ")[-1]
            self.number = NUM.get(message, -1) if head == "err" else -1
            if message.startswith("ORACLE: "):
                self.declined = message[8:]


class Skip(str):
    """Why a case is not compared."""


class Case:
    """asks: lists of one or two (request, words before an error's message, judge); the second is asked
    where the oracle declines the first. A judge gives None for an agreement, a Skip, or what differs."""

    def __init__(self, op, takes, gives, where, orders):
        self.op, self.takes, self.gives, self.where, self.orders = op, takes, gives, where, orders
        self.asks, self.result, self.notes = [], None, set()
        if op not in PLANS:
            self.result = Skip("the crate has no such job")
            return
        try:
            self.result = PLANS[op](self, takes, gives)
        except IndexError:
            self.result = "no table refusal, but a child that the rules don't allow"

    def table(self):
        t = Table(self.takes["table"], self.orders)
        if t.upward:
            self.notes.add("upward")
        return t

    def ask(self, *requests):
        self.asks.append(list(requests))

    def settle(self, replies):
        """One reply for each list in asks, to its first request."""
        results = []
        for asked, r in zip(self.asks, replies):
            try:
                results.append(Skip(r.declined) if r.declined else asked[0][2](r))
            except IndexError:
                results.append(f"cells that don't follow the table; the crate: {r.text}")
        wrong = [r for r in results if r and not isinstance(r, Skip)]
        self.result = wrong[0] if wrong else results[0] if results else self.result


def settle(batch):
    """Two rounds: what the oracle declines is asked in the other way, where there is one."""
    asked = [a for case in batch for a in case.asks]
    replies = [Reply(text, a[0][1]) for text, a in zip(ask([a[0][0] for a in asked]), asked)]
    again = [i for i, a in enumerate(asked) if len(a) > 1 and (replies[i].declined or replies[i].text == "bad cells")]
    for i, text in zip(again, ask([asked[i][1][0] for i in again])):
        asked[i].pop(0)
        replies[i] = Reply(text, asked[i][0][1])
    left = iter(replies)
    for case in batch:
        case.settle(list(islice(left, len(case.asks))))


# ---------------------------------------------------------------- the ops

def expect(reply, number):
    """None if the crate refuses with this number."""
    if reply.words is not None or reply.number != number:
        return f"refused with {number}; the crate: {reply.text}"
    return None


def plan_compact_read(case, q, a):
    def judge(r):
        if a["number"]:
            return expect(r, a["number"])
        want = [str(a["low"] | a["high"] << 64), str(a["used"])]
        return None if r.words == want else f"value and length {want}; the crate: {r.text}"
    case.ask((f"cdec {q['width']} {hx(q['s'])}", 1, judge))


def plan_compact_write(case, q, a):
    def judge(r):
        want = [hx(a["bytes"]), str(len(a["bytes"]))]
        return None if r.words == want else f"{want}; the crate: {r.text}"
    case.ask((f"cenc {q['width']} {q['low'] | q['high'] << 64}", 0, judge))


def plan_table_check(case, q, a):
    return Skip("tables are the port's own")


def plan_longest(case, q, a):
    if a["number"]:
        return Skip("table refused")
    t = case.table()
    if t.kinds & {10, 11}:
        return "a longest length for a vector" if a["has"] else Skip("reaches a vector: none in the crate, nothing to run")
    if t.kinds & {2, 5}:
        return Skip("float or OptionBool: none in the crate")

    def judge(r):
        want = [str(a["length"])] if a["has"] else None
        return None if r.words == want else f"longest length {want}; the crate: {r.text}"
    case.ask((f"tmax {t.hex}", 0, judge))
    if fixed := FIXED.get(t.plain()):
        case.ask((f"smax {fixed}", 0, judge))
        case.notes.add("fixed")


def plan_read(case, q, a):
    number, whole, lent = a["number"], q["flags"] & hrv.WHOLE, q["flags"] & hrv.LENT
    if number in (1, 2, 3, 4):
        return Skip("table refused")
    if number == 35:
        return Skip("35: the crate takes any D")
    t = case.table()
    if t.largest_item() > LARGEST_ITEM:
        return Skip(f"no such vector in the crate: item above {LARGEST_ITEM} bytes")
    most = min(q["C"], len(q["before"])) if lent else q["C"]

    def accepted(used, count, cells):
        if (int(used), int(count)) != (a["bytes"], a["cells"]):
            return f"{a['bytes']} bytes used, {a['cells']} cells; the crate: {used}, {count}"
        if not lent:
            case.notes.add("unlent")
            return None
        want, got = tuple(a["after"][:a["cells"]]), cells_of(cells)
        bits = Walk(t, want, t.root).bit_cells if 11 in t.kinds else set()
        if bits:
            case.notes.add("bits")
        return None if without(want, bits) == without(got, bits) else f"cells {jn(want)}; the crate: {cells}"

    def beyond(count, cells):
        case.notes.add("limit")
        w = Walk(t, cells_of(cells), t.root)
        if {15: w.depth > q["D"], 16: w.depth > 0 and w.charge >= q["M"], 17: int(count) > most}[number]:
            return None
        return (f"refused with {number} under D {q['D']}, M {q['M']}, C {most}; the crate's value has "
                f"nesting {w.depth}, charge {w.charge}, {count} cells")

    def judge(r, between=0):
        """between: words between the used bytes and the number of cells."""
        if number in (15, 16, 17):
            if r.words is None:
                return Skip("refused by a limit, and by the crate") if r.number > 0 else r.text
            return beyond(*r.words[1 + between:])
        if number:
            return expect(r, number)
        if r.words is None:
            return f"accepted; the crate: {r.text}"
        return accepted(r.words[0], *r.words[1 + between:])

    def judge_units(r):
        """A vector of units, without its cells."""
        if number == 0 and r.words and not lent:
            case.notes.add("unlent")
            want = [str(a["cells"] - 1), str(a["bytes"])]
            return None if r.words == want else f"count, bytes used {want}; the crate: {r.text}"
        if number == 17 and r.words:
            case.notes.add("limit")
            return None if int(r.words[0]) + 1 > most else f"refused with 17; the crate: {r.text}"
        return Skip("too many items")

    asks = [(f"{'tall' if whole and number not in (15, 16, 17) else 'tdec'} {t.hex} {hx(q['message'])}", 1, judge)]
    units = t.nodes[t.root][0] == 10 and t.nodes[t.nodes[t.root][1]][0] == 0
    if units:
        asks.append((f"decunits {hx(q['message'])}", 1, judge_units))
    case.ask(*asks)
    fixed = FIXED.get(t.plain())
    if fixed and not units and number != 18:
        case.ask((f"sdec {fixed} {NO_LIMITS} {hx(q['message'])}", 2, lambda r: judge(r, 1)))
        case.notes.add("fixed")


def plan_write(case, q, a):
    number = a["number"]
    if number in (1, 2, 3, 4):
        return Skip("table refused")
    if number in (20, 21, 23):
        return Skip("wrong cells (20, 21, 23)")
    if number == 14:
        return Skip("14 in writing: the crate panics, and the case lacks the cells")
    t = case.table()

    def judge(r):
        if number == 15:
            return too_deep(case, r, t, t.root, 1, 0)
        if r.words is None or number not in (0, 22):
            return f"number {number}; the crate: {r.text}"
        return written(case, a["length"], r.words[0], t, t.root, 1)
    case.ask((f"tenc {t.hex} {jn(q['cells'])}", 0, judge))
    if fixed := FIXED.get(t.plain()):
        case.ask((f"senc {fixed} {jn(q['cells'])}", 0, judge))
        case.notes.add("fixed")


def too_deep(case, reply, t, i, count, levels):
    """15 in writing: the crate writes count items of node i, inside so many levels, that nest beyond 64."""
    if reply.text == "bad cells":
        return Skip("15 in writing, with cells behind it that are wrong")
    if reply.words is None:
        return f"number 15; the crate: {reply.text}"
    case.notes.add("deep")
    depth = levels + Walk(t, case.takes["cells"], i, count).depth
    return None if depth > NEST else f"number 15; the crate writes a value with nesting {depth}"


def written(case, length, got, t, i, count):
    """Compares the bytes written; the case's cells are count items of node i, and end the bytes."""
    want, room = case.gives["after"][:length], len(case.takes["before"])
    got = b"" if got == "-" else bytes.fromhex(got)
    if case.gives["number"] == 22:
        case.notes.add("room")
        return None if len(got) > room else f"22 with room for {room} bytes; the crate writes {len(got)}"
    bits = set()
    if 11 in t.kinds:
        w = Walk(t, case.takes["cells"], i, count)
        bits = {length - w.bytes + j for j in w.bit_bytes}
        if bits:
            case.notes.add("bits")
    same = length == len(got) and without(want, bits) == without(got, bits)
    return None if same else f"{length} bytes {hx(want)}; the crate: {len(got)} bytes {hx(got)}"


CUT = Skip("listed difference, seen: the crate cuts the added count to 32 bits")


def plan_append(case, q, a):
    number, k, used = a["number"], q["k"], q["before"][:q["used_before"]]
    if number in (1, 2, 3, 4):
        return Skip("table refused")
    if number in (20, 21, 23):
        return Skip("wrong cells (20, 21, 23)")
    if number == 14:
        return Skip("14 in writing: the crate panics, and the case lacks the cells")
    if number in (30, 31):
        return Skip("30, 31: the crate's types and buffers rule them out")
    t = case.table()

    def cut(r):
        """33 with k above 32 bits on a used buffer: the crate adds k mod 2^32 instead."""
        if r.words is None:
            return None if r.number == 33 else f"refused with 33; the crate: {r.text}"
        added = count_of(r.words[0]) - count_of(hx(used))
        return CUT if added == k % 2**32 else f"refused with 33; the crate: {r.text}"

    def judge(r):
        if number == 32:                # any refusal of the old count
            return None if r.words is None and r.number in (10, 12, 13) else f"32; the crate: {r.text}"
        if number == 33:
            return expect(r, 33)
        if number == 15:
            return too_deep(case, r, t, t.nodes[t.root][1], k, 1)
        if r.words is None or number not in (0, 22):
            return f"number {number}; the crate: {r.text}"
        return written(case, a["used"], r.words[0], t, t.nodes[t.root][1], k)

    if number == 33 and k >= 2**32 and used:
        case.ask((f"appunits {hx(used)} {k}", 0, cut))
        return None
    asks = [(f"tapp {t.hex} {hx(used)} {k} {jn(q['cells'])}", 0, judge)]
    # 32 and 33 come before the cells are looked at, which may be wrong: then no items, or k units
    if number == 32:
        asks.append((f"tapp {t.hex} {hx(used)} 0 -", 0, judge))
    if number == 33:
        asks.append((f"appunits {hx(used)} {k}", 0, judge))
    case.ask(*asks)


def count_of(text):
    """The count at the front of the bytes, which both sides have read already."""
    b = bytes.fromhex(text)
    form = b[0] & 3
    if form == 3:
        return int.from_bytes(b[1:5], "little")
    return int.from_bytes(b[:(1, 2, 4)[form]], "little") >> 2


PLANS = {1: plan_compact_read, 2: plan_compact_write, 3: plan_table_check, 4: plan_longest, 5: plan_read,
         6: plan_write, 7: plan_append}
NOTES = {
    "unlent": "reads that lent no cells: the number of cells is compared, the cells are not",
    "bits": "with bit vectors: everything but the bits themselves is compared (their order is a stand-in's)",
    "limit": "refused by a limit, and the crate, asked without limits, reads a value: it lies beyond that limit",
    "deep": "refused with 15 in writing: the crate writes it, and it nests beyond 64",
    "upward": "under a table with a vector of itself or of a later node",
    "room": "refused with 22: the crate's bytes are longer than the output",
    "fixed": "also asked as a fixed Rust type",
}
FIXED = {}                      # plain form of a fixed Rust type: its name


# ---------------------------------------------------------------- the run

class Tally:
    def __init__(self):
        self.all, self.compared, self.skipped, self.notes, self.differ = Counter(), Counter(), Counter(), Counter(), []

    def add(self, case):
        self.all[case.op] += 1
        if isinstance(case.result, Skip):
            self.skipped[case.op, case.result] += 1
            return
        self.compared[case.op] += 1
        self.notes.update(case.notes)
        if case.result:
            self.differ.append(case)

    def show(self):
        wrong = Counter(c.op for c in self.differ)
        print(f"{'op':<18}{'compared':>9}{'agree':>9}{'differ':>9}{'not comparable':>16}")
        for op in sorted(self.all):
            n, m, rest = self.compared[op], wrong[op], self.all[op] - self.compared[op]
            print(f"{op} {hrv.OPS[op].name if op in hrv.OPS else 'unknown':<16}{n:>9}{n - m:>9}{m:>9}{rest:>16}")
            for (o, reason), count in self.skipped.most_common():
                if o == op:
                    print(f"{count:>61}  {reason}")
        print("among the compared:")
        for note, text in NOTES.items():
            print(f"{self.notes[note]:>8}  {text}")
        self.differ.sort(key=lambda c: len(str(c.takes)))
        for c in self.differ[:SHOWN]:
            given = " ".join(f"{k}={hx(v) if isinstance(v, bytes) else v}" for k, v in c.takes.items())
            print(f"DIFFERS: {c.where}, op {c.op}: {given}\n  the case: {c.result}")
        print(f"{self.compared.total()} compared, {len(self.differ)} differ")
        return 1 if self.differ else 0


def know_fixed():
    """Learns the oracle's fixed Rust types."""
    names = ask(["types"])[0].split()
    for name, text in zip(names, ask([f"stable {n}" for n in names])):
        FIXED.setdefault(Table(bytes.fromhex(text.split()[1]), frozenset(SEQUENCE)).plain(), name)


def compare(path, tally, orders=LANDED):
    numbered = enumerate(hrv.cases(path, orders))
    while batch := [Case(op, takes, gives, f"{os.path.basename(path)} case {j}", orders)
                    for j, (op, takes, gives) in islice(numbered, BATCH)]:
        settle(batch)
        for case in batch:
            tally.add(case)


def main(argv):
    paths, orders = orders_option(argv)
    if not paths or paths[0].startswith("-"):
        print(__doc__)
        return 2
    there()
    tally = Tally()
    try:
        know_fixed()
        for path in paths:
            compare(path, tally, orders)
        return tally.show()
    except (OSError, ValueError) as e:
        print(e, file=sys.stderr)
        return 2


if __name__ == "__main__":
    sys.exit(main(sys.argv[1:]))
