"""laws.py SEED COUNT    holds the model to the laws that are proved or promised of the port

Each law is about the model's own answers on drawn cases, so a slip in the model shows without the
port or the crate. A law of the rules is tried with no Order, with those that have landed and with all
of them; a law that comes with an Order is tried with it, as it lands and with all of them. The last
line is 'N tried, M broken'.
"""
import random
import sys

import draw
import draw_jobs
import draw_later
import later
import model
from model import LANDED, NEST, NONE, SEQUENCE, TOP, name_of

EVERY = frozenset(SEQUENCE)


def limits_decide(rng, orders):
    """A read is accepted under D, M, C exactly if it is without them and its nesting, charge and cells
    are within them; then the answer is the same."""
    t, s, D, M, C, lent, whole = draw_jobs.for_read(rng, orders)
    if 10 in orders and D > NEST:
        return None
    free = model.read(t, s, NEST if 10 in orders else 2**32 - 1, TOP, TOP, None, whole, orders=orders)
    got = model.read(t, s, D, M, C, None, whole, orders=orders)
    if free["number"] == 0:
        within = free["depth"] <= D and free["cells"] <= C and (free["depth"] == 0 or free["charge"] < M)
        return got == free if within else got["number"] in (15, 16, 17)
    return got == free or got["number"] in (15, 16, 17)


def there_and_back(rng, orders):
    """What is read is written with the same length, and reads the same again; with Order 5 it has the
    same bytes. No write is longer than the longest length."""
    ns, t = draw.a_table(rng, orders)
    s, _ = draw.message(rng, ns)
    got = draw.exact(t, s, orders)
    if got["number"] or got["cells"] > 2000:
        return None
    cells = model.read(t, s, NEST, TOP, TOP, [7] * got["cells"], False, orders=orders)["out"]
    wrote = model.write(t, cells, bytes(got["bytes"]), orders=orders)
    if wrote["number"] == 24:
        return None
    again = model.read(t, wrote["out"], NEST, TOP, TOP, [8] * got["cells"], True, orders=orders)
    most = model.longest(t, orders=orders)
    return (wrote["number"] == 0 and wrote["length"] == got["bytes"] and again["out"] == cells
            and (5 not in orders or wrote["out"] == s[:got["bytes"]])
            and (not most["has"] or wrote["length"] <= most["length"]))


def back_and_there(rng, orders):
    """What is written reads as the cells that were given, and nests no deeper than 64."""
    t, cells, _ = draw_jobs.for_write(rng, orders)
    wrote = model.write(t, cells, bytes(4000), orders=orders)
    if wrote["number"]:
        return None
    got = model.read(t, wrote["out"][:wrote["length"]], NEST, TOP, TOP, [9] * len(cells), True, orders=orders)
    return got["number"] == 0 and got["out"] == cells


def two_appends(rng, orders):
    """k items and then m are k + m at once, and one is accepted if the other is."""
    ns, t = draw.a_table(rng, orders, root=10)
    k, m = rng.randrange(3), rng.randrange(3)
    if ns[-1][0] != 10:
        return None
    first, second = (draw.value(rng, ns, ns[-1][1], depth=1, times=n, budget=60) for n in (k, m))
    if not first or not second:
        return None
    old = rng.choice((b"", draw.compact(rng.choice(draw_jobs.HEADS)) + draw.random_bytes(rng)))
    buf = old + bytes(rng.choice((0, 3, len(first.bytes) + len(second.bytes) + 8)))
    one = model.append(t, buf, len(old), k + m, first.cells + second.cells, orders=orders)
    a = model.append(t, buf, len(old), k, first.cells, orders=orders)
    b = model.append(t, a["buf"], a["used"], m, second.cells, orders=orders) if a["number"] == 0 else a
    return one == b if one["number"] == 0 else b["number"] != 0


# ---------------------------------------------------------------- Order 10

def upward(table):
    """Whether a vector's child is at its own index or later, in a table of whatever bytes."""
    return any(table[i] == 10 and table[i + 1] >= (i - 6) // 4 for i in range(6, len(table) - 1, 4))


def lower_tables_stay(rng, orders):
    """Order 10 changes no answer under a table whose vectors all look down, with D up to 64."""
    before = orders - {10}
    job, draw_one = rng.choice(((model.read, draw_jobs.for_read), (model.write, draw_jobs.for_write),
                                (model.append, draw_jobs.for_append), (model.longest, draw_jobs.for_check_table)))
    args = draw_one(rng, before)
    if upward(args[0]) or (job is model.read and args[2] > NEST):
        return None
    return job(*args, orders=orders) == job(*args, orders=before)


def any_depth_is_said(rng, orders):
    """A read is refused with 35 exactly if D is above 64 and the table is good."""
    t, s, D, M, C, lent, whole = draw_jobs.aim_read_10(rng, orders)
    got = model.read(t, s, D, M, C, lent, whole, orders=orders)
    good = model.check_table(t, orders=orders)["number"] == 0
    return (got["number"] == 35) == (good and D > NEST)


def nested_alike(rng, orders):
    """Written is what nests at most 64 deep, and appended what does so as items of the root."""
    ns = draw.recursive(rng, orders)
    m = draw.value(rng, ns, deep=rng.choice(draw.DEEP), budget=240)
    if not m:
        return None
    t, s = draw.table_bytes(ns), bytes(m.bytes)
    fits = model.read(t, s, NEST, TOP, TOP, None, True, orders=orders)["number"] == 0
    wrote = model.write(t, m.cells, bytes(len(s)), orders=orders)["number"]
    added = model.append(t, bytes(len(s)), 0, m.cells[0], m.cells[1:], orders=orders)["number"]
    return wrote == added == (0 if fits else 15)


# ---------------------------------------------------------------- the jobs that come with Orders

def any_cutting(rng, orders):
    """However a message is cut into bursts, the closing answer is that of one front read."""
    t, D, M, C, pool, calls = draw_later.for_radio(rng, orders)
    lent = pool[:calls[0][1]]
    bursts = [burst for _, _, burst in calls]
    calls = [(0, len(lent), burst) for burst in bursts] + [(1, len(lent), b"")]
    last = later.radio(t, D, M, C, lent, calls, orders=orders)[-1]
    want = model.read(t, b"".join(bursts), D, M, C, lent, False, orders=orders)
    if last["number"] == 36:
        return None
    fields = [f for f in want if f != "out"]
    return [last[f] for f in fields] == [want[f] for f in fields] and (want["number"] != 0 or last["out"] == want["out"])


def fresh_record(rng, orders):
    """An append to a vector whose record is that of a scan leaves the record of a scan."""
    t, buf, used, k, cells, record = draw_later.for_weights_append(rng, orders)
    scan = lambda s: later.weights_scan(t, s, NEST, TOP, TOP, orders=orders)
    before = scan(buf[:used] or b"\0")
    if before["number"] or before["record"] != record:
        return None
    got = later.weights_append(t, buf, used, k, cells, record, orders=orders)
    return None if got["number"] else scan(got["buf"][:got["used"]])["record"] == got["record"]


def equal_plans(rng, orders):
    """The list of differences is empty exactly if the cells agree."""
    t, left, right, *_ = draw_later.for_compare(rng, orders)
    got = later.compare(t, left, right, NEST, TOP, TOP, 10**9, orders=orders)
    if got["number"]:
        return None
    most = 5000
    l, r = (model.read(t, s, NEST, TOP, TOP, [0] * most, True, orders=orders) for s in (left, right))
    return None if l["number"] or r["number"] else (not got["list"]) == (l["out"] == r["out"])


def differences_as_made(rng, orders):
    """Of two values that were made to differ, the list is what was made."""
    ns, t = draw.a_table(rng, orders)
    both = draw_later.twin(rng, ns)
    if not both or model.check_table(t, orders=orders)["number"] or t != draw.table_bytes(ns, t[3]):
        return None
    got = later.compare(t, bytes(both.left.bytes), bytes(both.right.bytes), NEST, TOP, TOP, 10**9, orders=orders)
    return None if got["number"] == 15 else got["number"] == 0 and got["list"] == both.found


def whole_salvage(rng, orders):
    """A vector that reads comes out unchanged."""
    t, s, *_ = draw_later.for_salvage(rng, orders)
    got = draw.exact(t, s, orders)
    if got["number"] or model.check_table(t, orders=orders)["number"]:
        return None
    out = later.salvage(t, s, NEST, TOP, TOP, bytes(len(s)), orders=orders)
    return None if out["number"] in (24, 30) else (out["number"] == 0 and out["stopped"] == 0
                                                   and out["out"][:out["length"]] == s[:got["bytes"]])


def settings_back(rng, orders):
    """Settings that are written read the same again."""
    version, D, M, C, out = draw_later.for_settings_write(rng)
    got = later.settings_write(version, D, M, C, bytes(40), orders=orders)
    if got["number"]:
        return None
    back = later.settings_read(got["out"][:got["length"]], orders=orders)
    return (back["number"], back["D"], back["M"], back["C"]) == (0, D, M, C)


# ---------------------------------------------------------------- all of them

def landed_with(order):
    """The Orders up to this one, in the sequence of landing."""
    return frozenset(SEQUENCE[:SEQUENCE.index(order) + 1])


def sets_of(law, *sets):
    """The law beside each of the sets, none twice."""
    return [(law, orders) for orders in dict.fromkeys(sets)]


LAWS = [pair for law in (limits_decide, there_and_back, back_and_there, two_appends) for pair in sets_of(law, NONE, LANDED, EVERY)]
LAWS += [pair for order, laws in {
    10: (lower_tables_stay, any_depth_is_said, nested_alike), 1: (any_cutting,), 12: (whole_salvage,), 4: (fresh_record,),
    7: (equal_plans, differences_as_made), 13: (settings_back,)}.items() for law in laws for pair in sets_of(law, landed_with(order), EVERY)]


def main(argv):
    if len(argv) != 2:
        print(__doc__)
        return 2
    tried = broken = 0
    for law, orders in LAWS:
        rng = random.Random(f"{law.__name__}/{name_of(orders)}/{argv[0]}")
        results = [law(rng, orders) for _ in range(int(argv[1]))]
        right, wrong = results.count(True), results.count(False)
        print(f"{law.__name__:20} {right + wrong} tried, {wrong} broken; Orders {name_of(orders)}")
        tried, broken = tried + right + wrong, broken + wrong
    print(f"{tried} tried, {broken} broken")
    return 1 if broken else 0


if __name__ == "__main__":
    sys.exit(main(sys.argv[1:]))
