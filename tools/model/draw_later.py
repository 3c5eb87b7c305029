"""The arguments of the jobs of later.py, in the manner of draw_jobs.py."""
import random

import later
from draw import (BITS, DEEP, Maker, TooBig, a_table, after, any_version, bytes_of, compact, damage, damage_cells,
                  deep_target, exact, foot, idle_case, lanes_plan, leaf, limits, message, near, nodes, number,
                  odd_compact, optionbool, random_bytes, recursive, some_cells, table_bytes, value, wrapped)
from draw_jobs import HEADS
from model import TOP


# ---------------------------------------------------------------- messages of some sort

def tower(rng, orders, version, root10):
    """Nodes that stand one upon another, many of them vectors."""
    ns, n = [leaf(rng, orders, version)], rng.choice((8, 20, 40, 62))
    while len(ns) < n:
        i = len(ns) - 1
        ns.append(rng.choice(((10, i, 0), (10, i, 0), (10, i, 0), (6, i, 0), (9, i, 1), (7, i, 0), (8, i, 0))))
    return ns + [(10, len(ns) - 1, 0)] * root10


def a_plan(rng, orders, root10=False, forward=True, number=None):
    """(nodes, table, message): of any kind, or with much of what can be cut within; number: the refusal
    that is wanted, if any."""
    how, root = rng.randrange(10), 10 if root10 else None
    if number in (14, 19) or (how < 3 and number is None):
        ns, t, lengths = lanes_plan(rng, orders, root10)
        m = value(rng, ns, p=0.4 if number == 14 else rng.choice((0, 0, 0, 0.05)), rubbish=0.7 if number == 19 else 0.2,
                  lengths=lengths if rng.random() < 0.5 else None)
    elif number in (11, 12, 13) or how < 5:
        width = rng.choice((1, 2, 8, 16) if number == 12 else (4, 8, 16, 16))
        ns = wrapped(rng, [(1, 0, 0) if number == 11 else (4 if number else rng.choice((3, 4)), width, 0)], root10)
        t = table_bytes(ns, any_version(rng, orders))
        m = value(rng, ns, p=0.3 if number else rng.choice((0, 0, 0, 0.08)))
    elif how == 5 and rng.random() < 0.5:
        version = any_version(rng, orders)
        ns = tower(rng, orders, version, root10)
        t, m = table_bytes(ns, version), value(rng, ns, deep=rng.choice((0, 5, 64)), budget=200)
    else:
        ns, t = a_table(rng, orders, root=root, forward=forward)
        return ns, t, message(rng, ns, rng.choice((0, 0, 5, deep_target(rng, orders, ns))))[0]
    s = bytes_of(m)
    how = rng.randrange(10)
    return ns, t, damage(rng, s) if how == 0 else s[:rng.randrange(len(s) + 1)] if how == 1 else after(rng, s) if how == 2 else s


# ---------------------------------------------------------------- Order 1: the radio reader

def cuts(rng, s):
    """s in at most eight pieces of at most 300 bytes: whole, byte by byte, with a stretch of it byte by byte, or anyhow."""
    how, n = rng.randrange(5), len(s)
    if how == 0:
        at = []
    elif how < 3 and n <= 8:
        at = range(1, n)
    elif how < 4:
        start = rng.randrange(n + 1)
        at = range(start, start + rng.randrange(2, 7))
    else:
        at = [rng.randrange(n + 1) for _ in range(rng.choice((1, 2, 3, 5)))]
    at = sorted({0, n, *range(0, n, 300), *(x for x in at if x < n)})
    return [s[i:j] for i, j in zip(at, at[1:])] or [b""]


def radio_calls(rng, s, n, most, larger=0.4):
    """At most 12 calls for the message; the first is lent n cells, no other more than `most`; larger: the
    chance that one is lent more than the first."""
    calls = [(0, n, b) for b in cuts(rng, s)]
    for _ in range(rng.choice((0, 0, 0, 1, 2))):
        calls.insert(rng.randrange(len(calls) + 1), (0, n, rng.choice((b"", b"", random_bytes(rng, 3)))))
    if rng.random() < 0.6:
        calls.append((1, n, b""))
    if rng.random() < 0.06:
        calls.insert(rng.randrange(len(calls)), (1, n, b""))
    for _ in range(rng.choice((0, 0, 0, 1, 2))):            # after the end, or more of the same
        calls.append(rng.choice(((0, n, random_bytes(rng, 9)), (0, n, b""), (1, n, b""))))
    for _ in range(rng.choice((0, 0, 0, 1, 1, 2)) if n else 0):     # once with fewer cells, then again
        at = rng.randrange(len(calls))
        if at:
            closing, _, b = calls[at]
            calls.insert(at, (closing, rng.choice((n - 1, n - 1, 0, rng.randrange(n))), b))
    if most > n:
        calls = calls[:1] + [(c, rng.randrange(n, most + 1) if k == n and rng.random() < larger else k, b) for c, k, b in calls[1:]]
    return calls[:12]


def for_radio(rng, orders, number=None):
    """table, D, M, C, the pool of cells, calls"""
    how = rng.random()
    if how < 0.03:                                          # as much as a case may hold
        ns, n = [rng.choice(((1, 0, 0), (3, 1, 0), (3, 2, 0), (5, 4, 0))), (10, 0, 0)], rng.randrange(70, 130)
        m = value(rng, ns, 0, times=n)
        t, s, D, M, C = table_bytes(ns), compact(n) + bytes_of(m), 1, rng.choice((TOP, n * foot(ns, orders)[0] + rng.randrange(2))), TOP
        pool = some_cells(rng, min(128, n + rng.randrange(3)))
        return t, D, M, C, pool, radio_calls(rng, s, len(pool), len(pool))[:4]
    if how < 0.13:
        ns, s, n = idle_case(rng)
        t, D, M, C = table_bytes(ns), rng.choice((0, 1, 16)), rng.choice((0, 1, 2, 65536)), near(rng, min(n, TOP))
        n = min(rng.choice((3, 20, 70)), near(rng, min(n, TOP)))
    else:
        ns, t, s = a_plan(rng, orders, forward=rng.random() < (0.6 if number == 36 else 0.15),
                          number=number if number in (11, 12, 13, 14, 19) else None)
        if number == 17 and rng.random() < 0.4:
            ns = wrapped(rng, [(rng.choice((3, 4)), 16, 0)], False)
            t, s = table_bytes(ns, any_version(rng, orders)), bytes_of(value(rng, ns))
        D, M, C, x = limits(rng, t, s, orders - {5})
        n = x["cells"] + rng.choice((0, 0, 1, 2, 5))
        if rng.random() < 0.3:
            n = min(n + 3, near(rng, x["cells"]))
        if rng.random() < 0.15 or number == 17:             # too few at first, and enough for a later call
            D, M, C, n = 64, TOP, TOP, max(0, x["cells"] - rng.choice((1, 1, 2)))
    n = min(n, 128)
    pool = some_cells(rng, min(128, n + (rng.choice((0, 0, 1, 3)) if number != 17 else 3)))
    return t, D, M, C, pool, radio_calls(rng, s, n, len(pool), 0.4 if number != 17 else 0.8)


# ---------------------------------------------------------------- Order 4: weights

WEIGHTS = {4: [(0, 0x80000000), (0x7F800000, 0xFF800000),
               (0x7F800001, 0x7FBFFFFF, 0x7FC00000, 0x7FC00001, 0x7FFFFFFF,
                0xFF800001, 0xFFBFFFFF, 0xFFC00000, 0xFFC00001, 0xFFFFFFFF),
               (1, 0x80000001, 0x007FFFFF, 0x807FFFFF, 0x00800000, 0x80800000),
               (0x3F800000, 0xBF800000, 0x3F800001, 0xBF800001, 0x3F7FFFFF, 0x7F7FFFFF, 0xFF7FFFFF)],
           8: [(0, 1 << 63), (0x7FF << 52, 0xFFF << 52),
               (0x7FF0000000000001, 0x7FF7FFFFFFFFFFFF, 0x7FF8000000000000, 0x7FF8000000000001, 0x7FFFFFFFFFFFFFFF,
                0x7FF0000100000000, 0xFFF0000000000001, 0xFFF7FFFFFFFFFFFF, 0xFFF8000000000000, 0xFFF8000000000001, TOP),
               (1, (1 << 63) + 1, (1 << 52) - 1, (1 << 63) + (1 << 52) - 1, 1 << 52, (1 << 63) + (1 << 52)),
               (0x3FF0000000000000, 0xBFF0000000000000, 0x3FF0000000000001, 0xBFF0000000000001, 0x3FF0000100000000,
                0x3FEFFFFFFFFFFFFF, 0x7FEFFFFFFFFFFFFF, 0xFFEFFFFFFFFFFFFF)]}


def weights_of(rng):
    """Draws floats of a few sorts, so that equal ones, both zeros and none present come up."""
    sorts = rng.choice(((0,), (2,), (0, 2), (1, 2), (0, 3), (1,), (2, 4), (0, 1, 2, 3, 4), (0, 1, 2, 3, 4), (3, 4)))
    few = rng.random() < 0.3

    def one(rng, width):
        if rng.random() < 0.1 and len(sorts) == 5:
            return rng.getrandbits(8 * width)
        return rng.choice(WEIGHTS[width][rng.choice(sorts)][:2 if few else None])
    return one


def float_table(rng, orders):
    if rng.random() < 0.1:
        return a_table(rng, orders, root=10 if rng.random() < 0.5 else None)
    w = rng.choice((4, 8))
    ns = [leaf(rng, orders) for _ in range(rng.choice((0, 0, 0, 2)))]
    ns = [n for n in ns if n[0] != 2 or rng.random() < 0.2]
    ns += [(5, w, 0), (10, len(ns), 0)]
    if 10 in orders and rng.random() < 0.1:
        ns = [(10, 1, 0), (5, w, 0), (10, 1, 0)]
    return ns, table_bytes(ns, any_version(rng, orders))


def float_message(rng, ns):
    """A vector of floats under a table whose root is one, else any message."""
    if ns[-1][0] != 10 or ns[ns[-1][1]][0] != 5:
        return message(rng, ns)[0]
    draw, w = weights_of(rng), ns[ns[-1][1]][1]
    n = rng.choice((0, 1, 1, 2, 2, 3, 3, 4, 5, 8, 12, 64))
    return compact(n) + b"".join(draw(rng, w).to_bytes(w, "little") for _ in range(n))


def for_weights_scan(rng, orders):
    ns, t = float_table(rng, orders)
    s = float_message(rng, ns)
    D, M, C, _ = limits(rng, t, s, orders)
    if rng.random() < 0.4:
        D, M, C = 64, TOP, TOP
    how = rng.randrange(12)
    if how == 0:
        s = damage(rng, s)
    elif how == 1:
        s = s[:rng.randrange(len(s) + 1)]
    elif how == 2:
        s += random_bytes(rng, 4)
    elif how == 3:
        s = odd_compact(rng, len(s)) + s[1:]
    return t, s, D, M, C


def wrong_record(rng, r, width):
    """A record with something changed; not all of it is refused."""
    r = dict(r)
    how = rng.choice((0, 0, 1, 1, 2, 3, 4, 4, 5, 6, 7, 8, 9, 9, 10))
    if not r["some"] and rng.random() < 0.4:                # a mark that wants zeros
        how = rng.choice((7, 8, 9))
    key = rng.choice(("lightest", "heaviest"))
    if how == 0:
        r["items"] = rng.choice((r["items"] + 1, max(0, r["items"] - 1), 0, TOP))
    elif how == 1:
        r["missing"] = rng.choice((r["items"] + 1, TOP, r["items"], 0, r["missing"] + 1))
    elif how == 2:
        r["some"] ^= 1
    elif how == 3:
        r["some"], r["missing"] = rng.randrange(2), rng.choice((0, r["items"]))
    elif how == 4:
        r["width"] = 12 - width
        if r["width"] == 4:
            r["lightest"], r["heaviest"] = r["lightest"] >> 32, r["heaviest"] >> 32
    elif how in (5, 6):
        r[key] = rng.choice(WEIGHTS[width][2])              # NaN
    elif how == 7:
        r[key] = rng.choice(WEIGHTS[width][rng.choice((0, 1, 3, 4))])
    elif how == 8:
        r[key] = 1 << 8 * width - 1                         # minus zero
    elif how == 9:
        r[key + "_at"] = rng.choice((0, 1, r["items"], r["items"] + 5, TOP))
    else:                                                   # lightest above heaviest
        r["lightest"], r["heaviest"] = r["heaviest"], r["lightest"]
    return r


def for_weights_append(rng, orders):
    ns, t = float_table(rng, orders)
    width = ns[ns[-1][1]][1] if ns[-1][0] == 10 and ns[ns[-1][1]][0] == 5 else 4
    old = float_message(rng, ns) if rng.random() < 0.85 else b""
    record = dict(later.weights_scan(t, old or b"\0", 16, TOP, TOP, orders=orders)["record"], width=width)
    how = rng.randrange(10)
    if how == 0:
        old = damage(rng, old)
    elif how in (1, 2):                                     # an old head with anything behind it
        head = rng.choice(HEADS)
        old = compact(head) + random_bytes(rng, 9)
        missing = rng.choice((0, head, head // 2))
        record.update(items=head, missing=missing, some=int(missing < head), lightest=0, heaviest=0, lightest_at=0, heaviest_at=0)
        if missing < head:
            record.update({k: rng.choice(WEIGHTS[width][rng.choice((0, 1, 3, 4))]) for k in ("lightest", "heaviest")},
                          lightest_at=rng.randrange(head), heaviest_at=rng.randrange(head))
    if rng.random() < 0.35:
        record = wrong_record(rng, record, width)
    k = rng.choice((0, 1, 1, 2, 3, 6))
    m = value(rng, ns, ns[-1][1], times=k, floats=weights_of(rng)) if ns[-1][0] == 10 else None
    cells = m.cells if m else [0] * k
    if rng.random() < 0.15:
        cells = damage_cells(rng, cells)
    if rng.random() < 0.05:
        k = rng.choice((k + 1, max(0, k - 1), 2**32 - 1, 2**32, TOP))
    total = len(old) + (len(m.bytes) if m else 8 * k) + rng.choice((-1, 0, 1, 2, 3, 4, 7, 40))
    buf = old + bytes(rng.randrange(256) for _ in range(max(0, min(total, 999) - len(old))))
    used = len(old) if rng.random() < 0.95 else rng.choice((0, len(buf), len(buf) + 1))
    return t, buf, used, k, cells, record


# ---------------------------------------------------------------- Order 7: comparison

class Twin:
    """Two values of one table, alike but for some places: .left and .right, two Makers, and .found,
    the differences as they were made."""

    def __init__(self, rng, ns, p, budget):
        self.rng, self.ns, self.p = rng, ns, p
        self.left, self.right, self.found = Maker(rng, ns, budget=budget), Maker(rng, ns, budget=budget), []

    def note(self, word):
        self.found.append((len(self.left.bytes), len(self.right.bytes), word))

    def leaf(self, i, depth):
        """A scalar, unit or bit vector on both sides, from one seed or from two."""
        seeds = [self.rng.getrandbits(32)] * 2
        if self.rng.random() < self.p:
            seeds[1] += 1
        lengths = [self.rng.choice(BITS)] if self.rng.random() < 0.5 else None
        at = len(self.left.bytes), len(self.right.bytes)
        made = []
        for m, seed in zip((self.left, self.right), seeds):
            m.rng, m.lengths, n = random.Random(seed), lengths, len(m.cells)
            m.item(i, depth)
            m.rng, m.lengths = self.rng, None
            made.append(m.cells[n:])
        if made[0] != made[1]:
            self.found.append(at + ("bits" if self.ns[i][0] == 11 else "scalar",))

    def item(self, i, depth=0):
        k, a, b = self.ns[i]
        if k in (0, 1, 2, 3, 4, 5, 11):
            self.leaf(i, depth)
            return
        self.left.spend()
        self.right.spend()
        if k == 8:
            self.item(a, depth)
            self.item(b, depth)
        elif k == 9:
            for _ in range(b):
                self.item(a, depth)
        elif k == 10:
            self.vector(a, depth)
        else:
            self.tagged(k, a, b, depth)

    def tagged(self, k, a, b, depth):
        t = self.rng.randrange(2)
        other = t ^ (self.rng.random() < self.p)
        if t != other:
            self.note("tag")
        self.left.tag(t)
        self.right.tag(int(other))
        if t == other:
            if k == 7 or t:
                self.item(b if k == 7 and t else a, depth)
            return
        for m, tag in ((self.left, t), (self.right, other)):
            if k == 7 or tag:
                m.item(b if k == 7 and tag else a, depth)

    def vector(self, a, depth):
        few = (0, 1, 2, 2, 3, 4) if depth < 2 else (0, 1, 1, 2) if depth < 5 else (0, 0, 0, 1)
        counts = [self.rng.choice(few)] * 2
        if self.rng.random() < self.p:
            counts[self.rng.randrange(2)] += self.rng.choice((1, 1, 2, 61, 64) if self.ns[a][0] in (0, 1, 3) else (1, 2))
        if counts[0] != counts[1]:
            self.note("count")
        for m, n in zip((self.left, self.right), counts):
            m.cells.append(n)
            m.compact(n)
        for _ in range(min(counts)):
            self.item(a, depth + 1)
        for m, n in zip((self.left, self.right), counts):
            for _ in range(n - min(counts)):
                m.item(a, depth + 1)


def twin(rng, ns, p=0.15, budget=120):
    """A Twin of the root, or None if none is small."""
    for _ in range(3):
        t = Twin(rng, ns, p, budget)
        try:
            t.item(len(ns) - 1)
            return t
        except (TooBig, RecursionError):
            pass
    return None


def for_compare(rng, orders, number=None):
    """table, left, right, D, M, C, room for differences"""
    how = rng.random()
    if how < 0.06:                                          # items without bytes
        ns, left, n = idle_case(rng)
        t, C = table_bytes(ns), near(rng, min(n, TOP))
        right = compact(rng.choice((0, 1, 3, 64, 2**30, 2**32 - 1))) + left[len(left) - (ns[-1][0] == 8):] if rng.random() < 0.7 else left
        return t, left, right, rng.choice((0, 1, 1, 16)), rng.choice((0, 1, 65536, 65536)), C if rng.random() < 0.5 else TOP, rng.randrange(3)
    limit = {15: "depth", 16: "charge", 17: "cells"}.get(number)
    ns, t, s = a_plan(rng, orders, number=None if limit else number)
    if how < 0.7 and (limit or not number):
        both = twin(rng, ns, rng.choice((0.1, 0.2, 0.5)))
        left, right = (bytes(both.left.bytes), bytes(both.right.bytes)) if both else (s, s)
        if rng.random() < 0.2:
            left, right = rng.choice(((left, damage(rng, right)), (damage(rng, left), right), (left, after(rng, right)), (right, left)))
    else:
        clean = bytes_of(value(rng, ns))
        left, right = rng.choice(((s, clean), (clean, s), (clean, s), (s, s), (s, damage(rng, s)), (clean, damage(rng, clean))))
    D, M, C, x = limits(rng, t, left if rng.random() < 0.5 else right, orders)
    if rng.random() < 0.4 or number:
        D, M, C = 64, TOP, TOP
    if limit:                                               # one that the larger side meets
        left, right = sorted((left, right), key=lambda s: exact(t, s, orders)[limit], reverse=rng.random() < 0.4)
        most = max(exact(t, s, orders)[limit] for s in (left, right))
        D, M, C = (max(0, most - 1) if limit == "depth" else D, most if limit == "charge" else M,
                   max(0, most - 1) if limit == "cells" else C)
    count = len(later.compare(t, left, right, 64, TOP, TOP, 10**9, orders=orders)["list"])
    return t, left, right, D, M, C, min(128, near(rng, count) if rng.random() < 0.4 else count + rng.randrange(9))


# ---------------------------------------------------------------- Order 12: salvage

def least(f, top):
    """The smallest number up to top with f, which stays true from there on; top if there is none."""
    low, high = 0, top
    while low < high:
        mid = (low + high) // 2
        if f(mid):
            high = mid
        else:
            low = mid + 1
    return low


def torn_plan(rng, orders, number=None):
    """(table, torn bytes)"""
    how = rng.randrange(10)
    if how < 5 or number:
        ns, t, s = a_plan(rng, orders, root10=rng.random() < 0.97, number=number)
        if rng.random() < 0.5:
            s = s[:rng.randrange(len(s) + 1)]
        return t, s
    if how < 7:                                             # heads of each size, over few items or many
        ns = [rng.choice(((3, 1, 0), (3, 2, 0), (1, 0, 0), (4, 4, 0), (5, 4, 0), (3, 16, 0))), (10, 0, 0)]
        k = rng.choice((0, 1, 2, 3, 62, 63, 64, 65))
        m = value(rng, ns, 0, times=k)
        head = rng.choice([h for h in HEADS if h >= k])
        return table_bytes(ns), compact(head) + bytes_of(m) + (random_bytes(rng, 3) if rng.random() < 0.3 else b"")
    if how == 7 and 10 in orders:
        ns = recursive(rng, orders)
        s = bytes_of(value(rng, ns, deep=rng.choice(DEEP), budget=240))
        return table_bytes(ns), s[:rng.randrange(len(s) + 1)] if rng.random() < 0.4 else s
    if how == 8 and 8 in orders:
        ns = optionbool(rng, nodes(rng, orders, 1, root=10))
        return table_bytes(ns, rng.choice((1, 1, 1, 2))), message(rng, ns)[0]
    ns, t = a_table(rng, orders, root=10)
    m = value(rng, ns, p=0.06)
    return t, bytes_of(m) if rng.random() < 0.6 else damage(rng, bytes_of(m))


def for_salvage(rng, orders, number=None):
    """table, torn bytes, D, M, C, output"""
    if rng.random() < (0.3 if number == 17 else 0.1):
        ns, s, n = idle_case(rng)
        return (table_bytes(ns), s, rng.choice((0, 1, 16)), rng.choice((0, 1, 2, 65536)),
                near(rng, min(n, TOP)), bytes(rng.randrange(256) for _ in range(rng.randrange(8))))
    t, s = torn_plan(rng, orders, number if number in (11, 12, 13, 14, 19) else None)

    def ask(D=64, M=TOP, C=TOP, out=bytes(2048)):
        return later.salvage(t, s, D, M, C, out, orders=orders)
    D, M, C = rng.choice((16, 64)), TOP, rng.choice((4096, TOP))
    tight = rng.choice(((), (), (), (0,), (1,), (1,), (2,), (2,), (1, 2), (0, 1, 2)))
    if number not in (None, 10):
        tight = (number - 15,) if number in (15, 16, 17) else ()
    if 0 in tight:
        D = near(rng, least(lambda D: ask(D=D)["number"] != 15, 64), 2**32 - 1)
    if 1 in tight:
        M = near(rng, least(lambda M: ask(M=M)["number"] != 16, 2**40))
    if 2 in tight:
        C = near(rng, least(lambda C: ask(C=C)["number"] != 17, 2**40))
    if 10 in orders and rng.random() < 0.04:
        D = rng.choice((65, 66, 2**32 - 1))
    size = ask()["length"]
    size = max(0, size + rng.choice((-1, 0, 0, 1, 5))) if rng.random() < 0.8 else len(s) + 3
    return t, s, D, M, C, bytes(rng.randrange(256) for _ in range(size))


# ---------------------------------------------------------------- Order 13: settings

def settings_bytes(rng):
    version = rng.choice((1, 2))
    b = b"WLS" + version.to_bytes(2, "little")
    for width in (4, 8) if version == 1 else (4, 8, 8):
        v = number(rng, width)
        if width == 4 and rng.random() < 0.8:
            v = rng.choice((0, 1, 16, 63, 64, 65))
        if rng.random() < 0.3:
            v = rng.choice((3, 4095, 4096, 4097))
        b += compact(v) if rng.random() < 0.95 else odd_compact(rng, v)
    how = rng.randrange(6)
    if how == 0:
        b = damage(rng, b)
    elif how == 1:
        b = b[:rng.choice((4, 5, 6, rng.randrange(len(b) + 1)))]
    elif how == 2:
        b += random_bytes(rng, 3)
    if rng.random() < 0.08:
        b = b[:3] + rng.choice((0, 3, 256, 257, 258, 513)).to_bytes(2, "little") + b[5:]
    if rng.random() < 0.05:
        b = rng.choice((b"WLT", b"WTD", b"wLS", b"WSL", b"\0\0\0")) + b[3:]
    return b + bytes(rng.random() < 0.1)


def settings_numbers(rng):
    return (rng.choice((0, 1, 1, 1, 2, 2, 2, 3, 257, 258, 65535)), rng.choice((0, 16, 64, 65, number(rng, 4))),
            number(rng, 8), rng.choice((4096, 4096, 4095, 4097, number(rng, 8))))


def for_settings_write(rng):
    version, D, M, C = settings_numbers(rng)
    size = 5 + len(compact(D) + compact(M)) + (len(compact(C)) if version != 1 or C != 4096 else 0)
    size = rng.choice((size - 1, size, size, size + 1, size + 5, rng.randrange(size)))
    return version, D, M, C, bytes(rng.randrange(256) for _ in range(size))


def for_settings_edit(rng):
    return settings_numbers(rng) + settings_numbers(rng)[1:]
