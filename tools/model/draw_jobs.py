"""The arguments of each job of docs/RULES.md: for_read and so on draw any case, and aim_read_10 and so on
aim at what an Order changed.
"""
import model
from draw import (DEEP, WIDTHS, a_table, after, any_version, bad_table, bytes_of, compact, damage, damage_cells,
                  deep_target, exact, idle_case, lane, lanes_plan, leaf, limits, message, near, nodes, number,
                  odd_compact, optionbool, random_bytes, recursive, some_cells, table, table_bytes, value, wrapped)
from model import TOP


# ---------------------------------------------------------------- any case

def for_check_table(rng, orders):
    return (bad_table(rng, orders) if rng.random() < 0.7 else table(rng, orders)[2],)


def for_compact_read(rng, orders):
    w = rng.choice(WIDTHS)
    v = number(rng, rng.choice(WIDTHS))
    if rng.random() < 0.4:
        v = max(0, 2**rng.choice((6, 8, 14, 16, 30, 32, 8 * rng.randrange(4, 17))) - rng.randrange(2))
    s = compact(v) if rng.random() < 0.5 else odd_compact(rng, v)
    if rng.random() < 0.4:
        s = damage(rng, s)
    return w, s


def for_read(rng, orders, given=None):
    if not given and rng.random() < 0.08:
        ns, s, n = idle_case(rng)
        C = near(rng, min(n, TOP))
        lent = some_cells(rng, min(300, near(rng, min(n, TOP)))) if rng.random() < 0.5 else None
        return table_bytes(ns), s, rng.choice((0, 1, 16)), rng.choice((0, 1, 2, 65536)), C, lent, rng.random() < 0.5
    ns, t = a_table(rng, orders, given)
    s, _ = message(rng, ns, deep_target(rng, orders, ns))
    D, M, C, x = limits(rng, t, s, orders)
    lent = None
    if rng.random() < 0.8:
        lent = some_cells(rng, min(600, near(rng, x["cells"]) if rng.random() < 0.5 else min(x["cells"], 500) + 5))
    return t, s, D, M, C, lent, rng.random() < 0.5


def for_write(rng, orders, given=None):
    ns, t = a_table(rng, orders, given)
    deep = deep_target(rng, orders, ns)
    m = value(rng, ns, deep=deep)
    cells = m.cells if m else some_cells(rng, 5)
    if rng.random() < 0.3:                                  # made by reading
        s, _ = message(rng, ns)
        x = exact(t, s, orders)
        if x["number"] == 0 and x["cells"] < 500:
            cells = model.read(t, s, 64, TOP, TOP, [0] * x["cells"], False, orders=orders)["out"]
    if rng.random() < 0.5:
        cells = damage_cells(rng, cells)
    size = near(rng, len(m.bytes)) if m and rng.random() < 0.5 else len(m.bytes) + 9 if m else 9
    return t, cells, bytes(rng.randrange(256) for _ in range(min(size, 3000)))


# old counts around which a head grows, or the sum of counts runs over
HEADS = (0, 1, 5, 61, 62, 63, 63, 63, 64, 16381, 16382, 16383, 16383, 16383, 16384, 2**30 - 2, 2**30 - 1,
         2**30 - 1, 2**30 - 1, 2**30, 2**32 - 4, 2**32 - 3, 2**32 - 2, 2**32 - 1)


def for_append(rng, orders, given=None):
    root = None if rng.random() < 0.08 else 10
    ns, t = a_table(rng, orders, given, root=root)
    child = ns[-1][1] if ns[-1][0] == 10 else 0
    old = b""
    how = rng.randrange(5)
    if how == 1:
        m = value(rng, ns)
        old = bytes(m.bytes) if m else b"\0"
    elif how > 1:
        head = compact(rng.choice(HEADS)) if how < 4 else odd_compact(rng, rng.choice(HEADS))
        old = head + random_bytes(rng, rng.choice((12, 12, 150)))
    k = rng.choice((0, 1, 1, 2, 3))
    m = value(rng, ns, child, deep=deep_target(rng, orders, ns), depth=1, times=k)
    cells = list(m.cells) if m else []
    if rng.random() < 0.3:
        cells = damage_cells(rng, cells)
    if rng.random() < 0.1:
        k = rng.choice((k + 1, max(0, k - 1), 2**32 - 1, 2**32, TOP))
    total = len(old) + 4 + (len(m.bytes) if m else 0)
    size = rng.choice((len(old), total, total - 1, total - 2, total - 3, total - 4, total + 6, total + 6))
    size = max(size, len(old))
    buf = old + bytes(rng.randrange(256) for _ in range(size - len(old)))
    used = len(old) if rng.random() < 0.95 else rng.choice((0, len(buf), len(buf) + 1, TOP))
    return t, buf, used, k, cells


# ---------------------------------------------------------------- round a message, an output, a buffer

def around(rng, orders, t, s, without=()):
    """The arguments of a read, its limits generous or at the message's own thresholds; without: Orders
    that are left out when these are looked up, since they refuse the message."""
    D, M, C, x = limits(rng, t, s, orders.difference(without))
    if rng.random() < 0.5:
        D, M, C = 64, TOP, TOP
    lent = None
    if rng.random() < 0.8:
        n = min(x["cells"] + 9, near(rng, x["cells"])) if rng.random() < 0.3 else x["cells"] + rng.randrange(4)
        lent = some_cells(rng, min(500, n))
    return t, s, D, M, C, lent, rng.random() < 0.5


def output(rng, m):
    """A lent output of about the length that the value takes."""
    size = len(m.bytes) if m else 9
    return bytes(rng.randrange(256) for _ in range(max(0, size + rng.choice((-1, 0, 0, 1, 6)))))


def joined(rng, m, k, old):
    """A buffer, its used length and k of an append, with room or nearly so."""
    total = len(old) + (len(m.bytes) if m else 0) + rng.choice((-1, 0, 1, 3, 9))
    buf = old + bytes(rng.randrange(256) for _ in range(max(0, total - len(old))))
    return buf, len(old) if rng.random() < 0.93 else rng.choice((0, len(buf) + 1)), k


def past_end(rng, cells):
    """Mostly the cells; else one of them changed, its top bits above all."""
    cells, at = list(cells), rng.randrange(len(cells)) if cells else 0
    if cells and rng.random() < 0.35:
        cells[at] ^= 1 << rng.choice((63, 63, 32, 31, 16, 8, rng.randrange(64)))
    return cells


def deep_fault(rng, cells):
    """Mostly the cells; else one of the last ones changed, or the cells cut there."""
    cells = list(cells)
    at = max(0, len(cells) - rng.randrange(1, 6))
    how = rng.randrange(6)
    if how == 0:
        del cells[at:]
    elif how == 1 and cells:
        cells[at] = rng.choice((1, 2, 64, 2**29 - 1, 2**29, 2**32 - 1, 2**32, TOP))
    return cells


def deep_bits(rng, orders, level):
    """(nodes, cells of the root's only item): a bit vector on that level, whole, with a bit past its end, with
    cells missing or with another count."""
    n = rng.choice((0, 1, 63, 64, 65, 130))
    cells = [1, 1] * (level - 2) + [0, n] + [0] * -(-n // 64)
    how, at = rng.randrange(6), 2 * level - 3               # at: its count cell
    if how < 2:
        cells = cells[:at + rng.choice((0, 1, 1))]
    elif how == 2:
        cells[-1] = TOP
    elif how == 3:
        cells[at] = rng.choice((2**29 - 1, 2**29, TOP))
    return [lane(rng, orders), (10, 2, 0), (7, 0, 1), (10, 2, 0)], cells


# ---------------------------------------------------------------- Order 2

def result_edge(rng):
    """Order 2: a Result whose larger child is 2^31 - 1, or one or two below it."""
    ns = [(3, 1, 0), (9, 0, 32768), (9, 1, 65535), (9, 0, rng.choice((32765, 32766, 32766, 32767))), (8, 2, 3)]
    ns.append((7, 4, rng.randrange(5)) if rng.random() < 0.5 else (7, rng.randrange(5), 4))
    if rng.random() < 0.3:
        ns.append(rng.choice(((10, 5, 0), (6, 5, 0), (7, 0, 5), (9, 5, 1))))
    return ns


def aim_table_2(rng, orders):
    return (table_bytes(result_edge(rng), any_version(rng, orders)),)


def aim_read_2(rng, orders):
    """Vectors of Results, with M at the charge by the old rule and by the new one."""
    ns = [leaf(rng, orders) for _ in range(2)]
    for _ in range(rng.choice((1, 1, 2))):
        ns.append((7, rng.randrange(len(ns)), len(ns) - 1) if rng.random() < 0.5 else (7, len(ns) - 1, rng.randrange(len(ns))))
        if rng.random() < 0.3:
            ns.append(rng.choice(((6, len(ns) - 1, 0), (9, len(ns) - 1, 2), (8, len(ns) - 1, 0))))
    ns.append((10, len(ns) - 1, 0))
    t, s = table_bytes(ns), bytes_of(value(rng, ns))
    if rng.random() < 0.25:
        return around(rng, orders, t, s)
    new, old = exact(t, s, orders)["charge"], exact(t, s, orders - {2})["charge"]
    M = max(0, rng.choice((new - 1, new, new, new + 1, new + 1, old, old, old + 1)))
    return t, s, 64, M, TOP, None if rng.random() < 0.5 else some_cells(rng, 40), rng.random() < 0.5


# ---------------------------------------------------------------- Order 3

def aim_compact_read_3(rng, orders):
    form, more = rng.randrange(4), rng.choice((4, 4, 5, 6, 7, 8, 8, 9, 15, 16, 17, 67))
    first = (more - 4 if form == 3 else rng.randrange(64)) << 2 | form
    need = (1, 2, 4, more + 1)[form]
    s = bytes([first] + [rng.choice((0, 1, 255, rng.randrange(256))) for _ in range(need - 1)])
    return rng.choice(WIDTHS), s[:rng.choice((0, 1, 2, need - 1, need - 1, need, rng.randrange(need + 1)))]


def aim_read_3(rng, orders):
    """Messages cut anywhere."""
    ns = wrapped(rng, [leaf(rng, orders)], False) if rng.random() < 0.6 else nodes(rng, orders)
    t, s = table_bytes(ns), bytes_of(value(rng, ns))
    _, _, D, M, C, lent, whole = around(rng, orders, t, s, (5,))
    s = s[:rng.randrange(len(s) + 1)]
    if rng.random() < 0.25:                                 # a number that opens and doesn't end
        s += odd_compact(rng, 0)[:rng.choice((1, 1, 2, 3))]
    return t, s, D, M, C, lent, whole


# ---------------------------------------------------------------- Order 5

def aim_read_5(rng, orders):
    """Bits past the end, alone and beside other faults."""
    ns = wrapped(rng, [lane(rng, orders)], False)
    t, s = table_bytes(ns, any_version(rng, orders)), bytes_of(value(rng, ns, rubbish=0.7))
    _, _, D, M, C, lent, whole = around(rng, orders, t, s, (5,))
    return t, after(rng, s), D, M, C, lent, whole


# ---------------------------------------------------------------- Order 8

def aim_table_8(rng, orders):
    ns = nodes(rng, orders, 1)
    if rng.random() < 0.6:
        ns = optionbool(rng, ns)
    return (table_bytes(ns, rng.choice((1, 1, 1, 2, 2, 2, 2, 2, 2, 0, 3, 257, 258))),)


def aim_read_8(rng, orders):
    version = any_version(rng, orders)
    ns = nodes(rng, orders, version)
    if version == 1 or rng.random() < 0.15:
        ns = optionbool(rng, ns)
    return around(rng, orders, table_bytes(ns, version), message(rng, ns)[0])


def aim_write_8(rng, orders):
    version = any_version(rng, orders)
    ns = nodes(rng, orders, version)
    if version == 1 and rng.random() < 0.9:
        ns = optionbool(rng, ns)
    m = value(rng, ns)
    cells = m.cells if m else some_cells(rng, 4)
    return table_bytes(ns, version), cells if rng.random() < 0.7 else damage_cells(rng, cells), output(rng, m)


def aim_append_8(rng, orders):
    version, k = any_version(rng, orders), rng.choice((0, 1, 2))
    ns = nodes(rng, orders, version, root=10 if rng.random() < 0.8 else None)
    if version == 1 and rng.random() < 0.9:
        ns = optionbool(rng, ns)
    child = ns[-1][1] if ns[-1][0] == 10 else 0
    m = value(rng, ns, child, depth=1, times=k)
    old = rng.choice((b"", b"\0", b"\1", bytes_of(value(rng, ns))))
    cells = m.cells if m else []
    return (table_bytes(ns, version), *joined(rng, m, k, old), cells if rng.random() < 0.7 else damage_cells(rng, cells))


# ---------------------------------------------------------------- Order 9

def aim_table_9(rng, orders):
    ns = nodes(rng, orders, 1)
    i = rng.randrange(len(ns))
    ns[i] = (11, rng.choice((0, 1, 2, 4, 8, 0, 1, 2, 4, 8, 3, 5, 7, 9, 16, 255)), rng.choice((0, 1, 0, 1, 0, 1, 2, 256, 257)))
    return (table_bytes(ns, any_version(rng, orders)),)


def aim_read_9(rng, orders):
    ns, t, lengths = lanes_plan(rng, orders)
    s = bytes_of(value(rng, ns, rubbish=0.25, lengths=lengths))
    _, _, D, M, C, lent, whole = around(rng, orders, t, s, (5,))
    return t, after(rng, s), D, M, C, lent, whole


def aim_write_9(rng, orders):
    ns, t, lengths = lanes_plan(rng, orders)
    m = value(rng, ns, lengths=lengths)
    return t, past_end(rng, m.cells if m else [0]), output(rng, m)


def aim_append_9(rng, orders):
    ns, t, lengths = lanes_plan(rng, orders, True)
    k = rng.choice((0, 1, 1, 2))
    m = value(rng, ns, ns[-1][1], depth=1, times=k, lengths=lengths)
    return (t, *joined(rng, m, k, rng.choice((b"", b"\0", b"\4\0", b"\xfc" + bytes(9)))), past_end(rng, m.cells if m else []))


# ---------------------------------------------------------------- Order 10

def aim_table_10(rng, orders):
    ns = recursive(rng, orders) if rng.random() < 0.3 else nodes(rng, orders, 1)
    ns, i = list(ns), rng.randrange(len(ns))
    how = rng.randrange(6)
    if how < 3:
        ns[i] = (10, rng.choice((i, i, i + 1, len(ns) - 1, len(ns) - 1, len(ns), 255)), rng.choice((0, 0, 0, 0, 1)))
    elif how == 3:                                          # the others keep the lower index
        ns[i] = (rng.choice((6, 7, 8, 9)), rng.choice((i, i + 1)), rng.choice((0, 1, i)))
    elif how == 4 and len(ns) < 64:                         # a circle that the root doesn't reach
        ns.append((rng.choice((3, 4)), rng.choice(WIDTHS), 0))
    return (table_bytes(ns, any_version(rng, orders)),)


def aim_read_10(rng, orders):
    ns = recursive(rng, orders) if rng.random() < 0.75 else nodes(rng, orders, root=10)
    t = table_bytes(ns, rng.choice((1, 1, any_version(rng, orders))))
    s = bytes_of(value(rng, ns, deep=rng.choice(DEEP), budget=240))
    _, s, D, M, C, lent, whole = around(rng, orders, t, s)
    if rng.random() < 0.3:
        D = rng.choice((62, 63, 64, 65, 66, 2**32 - 1))
    if lent is not None and len(lent) < 80 and rng.random() < 0.5:
        lent = some_cells(rng, 90)
    return t, s, D, M, C, lent, whole


def aim_write_10(rng, orders):
    if rng.random() < 0.4:
        ns, cells = deep_bits(rng, orders, rng.choice((64, 65, 65)))
        return table_bytes(ns), [1] + cells, bytes(rng.randrange(256) for _ in range(rng.choice((0, 160))))
    ns = recursive(rng, orders)
    m = value(rng, ns, deep=rng.choice(DEEP), budget=240)
    return table_bytes(ns, any_version(rng, orders)), deep_fault(rng, m.cells if m else [0]), output(rng, m)


def aim_append_10(rng, orders):
    if rng.random() < 0.4:
        ns, cells = deep_bits(rng, orders, rng.choice((64, 65, 65)))
        return table_bytes(ns), bytes(rng.choice((0, 160))), 0, 1, cells
    ns = recursive(rng, orders)
    k = rng.choice((1, 1, 1, 2))
    m = value(rng, ns, ns[-1][1], depth=1, times=k, deep=rng.choice(DEEP), budget=240)
    return (table_bytes(ns), *joined(rng, m, k, rng.choice((b"", b"\0", b"\4\0", b"\xfc"))), deep_fault(rng, m.cells if m else []))


# ---------------------------------------------------------------- all of them

AIMS = dict(
    check_table={2: aim_table_2, 8: aim_table_8, 9: aim_table_9, 10: aim_table_10},
    compact_read={3: aim_compact_read_3},
    read={2: aim_read_2, 3: aim_read_3, 5: aim_read_5, 8: aim_read_8, 9: aim_read_9, 10: aim_read_10},
    write={8: aim_write_8, 9: aim_write_9, 10: aim_write_10},
    append={8: aim_append_8, 9: aim_append_9, 10: aim_append_10})


def aimed(job, rng, orders):
    """Arguments of a job that aim at one of the Orders, of which at least one bears on it."""
    return rng.choice([aim for order, aim in AIMS[job].items() if order in orders])(rng, orders)
