"""Makes case files with the model's answers (FORMAT.md describes them). A seed fixes the file.

make.py drawn SEED COUNT OUT [ORDERS]   random cases, each op with a share and each number with a weight
make.py edges SEED COUNT OUT [ORDERS]   cases at the edges of the rules, family by family
make.py check FILE [ORDERS]             asks the model again

ORDERS is 10,2,3 for one, or none; left out, it is those that have landed (LANDED in model.py).
"""
import random
import sys

import draw
import draw_jobs
import draw_later
import edges
import model
from hrv import CLOSING, LENT, MOST_BODY, OPS, Writer, bodies, histogram, known, parse, size_of, tally
from model import LANDED, orders_named

USUAL, TRIES = 600, 300                 # bytes of a usual case; attempts to have the number drawn


# ---------------------------------------------------------------- drawn: arguments of the first ops

TABLE = {1: 1.5, 2: 1.5, 3: 1.5, 4: 1.5}    # refused tables, by weight

BENCH = [bytes.fromhex(h) for h in """fc 0101 fdff 02000100 feffffff 0300000040 070000000001 130000000000000001
    0100 0104 fd03 02000400 02 03 07 17 37 03ffffff3f 03ffffffff 33ffffffffffffffffffffffffffffffff""".split()]


def draw_compact_read(rng, orders, number):
    width, s = draw_jobs.for_compact_read(rng, orders)
    return width, rng.choice(BENCH) if rng.random() < 0.2 else s


def draw_compact_write(rng, orders, number):
    width = rng.choice(draw.WIDTHS)
    v = draw.number(rng, width)
    return width, v & model.TOP, v >> 64


def draw_table(rng, orders, number):
    if number == 4:
        return (draw.table_bytes(draw.edge_nodes(rng)),)
    return draw_jobs.for_check_table(rng, orders)


def steer(rng, orders, number, writing, root10=False):
    """Nodes of a table under which the number is likely, or None for any table."""
    if number in (14, 19):
        return draw.wrapped(rng, [draw.lane(rng, orders)], root10)
    if number == 12:
        return draw.wrapped(rng, [(4, rng.choice((1, 2, 8, 16)), 0)], root10)
    if number in (0, 17, 20) and rng.random() < 0.2:
        return draw.wrapped(rng, [(rng.choice((3, 4)), 16, 0)], root10)
    if number == 15 and writing:
        return draw.recursive(rng, orders)
    return None


def with_table(rng, orders, number, args):
    """For 1 to 4: the table replaced by one that is refused so."""
    if number in TABLE:
        for _ in range(TRIES):
            t = draw_table(rng, orders, number)[0]
            if model.check_table(t, orders=orders)["number"] == number:
                return (t,) + args[1:]
    return args


def as_read(table, s, D, M, C, lent, whole):
    """The fields of a read, from its arguments."""
    return table, s, D, M, C, int(whole) | (0 if lent is None else LENT), lent or []


def draw_read(rng, orders, number):
    given = steer(rng, orders, number, False)
    return as_read(*with_table(rng, orders, number, draw_jobs.for_read(rng, orders, given)))


def draw_write(rng, orders, number):
    given = steer(rng, orders, number, True)
    return with_table(rng, orders, number, draw_jobs.for_write(rng, orders, given))


def draw_append(rng, orders, number):
    given = steer(rng, orders, number, True, True)
    return with_table(rng, orders, number, draw_jobs.for_append(rng, orders, given))


# ---------------------------------------------------------------- drawn: arguments of later ops

def fault(label):
    """The number in a label such as 'torn12', for which the arguments are steered."""
    return int("0" + "".join(c for c in str(label) if c.isdigit())) or None


def draw_radio(rng, orders, number):
    *args, calls = with_table(rng, orders, number, draw_later.for_radio(rng, orders, fault(number)))
    return *args, [dict(flags=CLOSING if closing else 0, lent=lent, burst=burst) for closing, lent, burst in calls]


def draw_scan(rng, orders, number):
    return with_table(rng, orders, number, draw_later.for_weights_scan(rng, orders))


def draw_weigh(rng, orders, number):
    t, buf, used, k, cells, record = with_table(rng, orders, number, draw_later.for_weights_append(rng, orders))
    if number == 32:                                        # an old count that can't be read
        buf = draw.odd_compact(rng, rng.choice(draw_jobs.HEADS)) + buf
        used = rng.randrange(1, len(buf) + 1)
    if number == 21 and cells:
        cells = list(cells)
        cells[rng.randrange(len(cells))] |= 1 << rng.randrange(32, 64)
    return t, buf, used, k, cells, record


def draw_compare(rng, orders, number):
    wanted = fault(number)
    wanted = wanted if wanted in (11, 12, 13, 14, 15, 16, 17, 19) else None
    return with_table(rng, orders, number, draw_later.for_compare(rng, orders, wanted))


def draw_salvage(rng, orders, number):
    table, torn, *rest = with_table(rng, orders, number, draw_later.for_salvage(rng, orders, fault(number)))
    head = draw.compact(rng.choice(draw_jobs.HEADS))
    if number == 10:                                        # the head itself
        torn = head[:rng.randrange(len(head))]
    if number == 13:
        torn = draw.odd_compact(rng, rng.choice(draw_jobs.HEADS)) + draw.random_bytes(rng, 5)
    return table, torn, *rest


def draw_settings_read(rng, orders, number):
    record = draw_later.settings_bytes(rng)
    return (record + bytes(number == 35 and rng.random() < 0.4),)          # 18 comes after 35


def draw_settings_write(rng, orders, number):
    return draw_later.for_settings_write(rng)


def draw_settings_edit(rng, orders, number):
    return draw_later.for_settings_edit(rng)


# ---------------------------------------------------------------- drawn: which ops and numbers, how often

class Plan:
    """How the cases of an op are drawn. share: how many of them, of a hundred of the first seven ops.
    draw(rng, orders, label): arguments, in the order of the op's fields. weights: the labels that can
    come; more: those that come with an Order, at5={19: 4}. aim: the job whose arguments in
    draw_jobs.AIMS aim at an Order. usual: bytes of a usual case."""

    def __init__(self, share, draw, weights, aim=None, usual=USUAL, **more):
        self.share, self.draw, self.weights, self.aim, self.usual = share, draw, weights, aim, usual
        self.more = {int(at[2:]): labels for at, labels in more.items()}

    def labels(self, orders):
        found = dict(self.weights)
        for order, labels in self.more.items():
            if order in orders:
                found.update(labels)
        return found

    def aims(self, orders):
        return self.aim is not None and not orders.isdisjoint(draw_jobs.AIMS[self.aim])


FEW = {1: 1, 2: 1, 3: 1, 4: 1}          # refused tables, where they are not the point

PLANS = {
    1: Plan(15, draw_compact_read, {0: 4, 10: 2, 12: 2, 13: 3}, aim="compact_read"),
    2: Plan(5, draw_compact_write, {0: 1}),
    3: Plan(10, draw_table, {0: 6, 1: 2, 2: 2, 3: 4, 4: 2}, aim="check_table"),
    4: Plan(6, draw_table, {0: 12, 1: 1, 2: 1, 3: 2, 4: 1}, aim="check_table"),
    5: Plan(34, draw_read, {0: 36, **TABLE, 10: 8, 11: 5, 12: 3, 13: 5, 14: 3, 15: 7, 16: 8, 17: 8, 18: 5},
            aim="read", at5={19: 4}, at10={35: 2}),
    6: Plan(15, draw_write, {0: 24, **TABLE, 14: 4, 20: 7, 21: 8, 22: 5, 23: 5},
            aim="write", at8={24: 3}, at10={15: 4}),
    7: Plan(15, draw_append, {0: 28, **TABLE, 14: 2, 20: 4, 21: 4, 22: 6, 23: 3, 30: 2, 31: 2, 32: 5, 33: 5},
            aim="append", at8={24: 2}, at10={15: 3}),
    8: Plan(26, draw_radio, {0: 30, "more": 6, **TABLE, 10: 12, 11: 5, 12: 3, 13: 4, 14: 3, 15: 5, 16: 5, 17: 8, 26: 16},
            usual=6000, at5={19: 6}, at10={35: 2, 36: 4}),
    9: Plan(8, draw_scan, {0: 30, **FEW, 10: 4, 13: 2, 15: 2, 16: 3, 17: 3, 18: 3, 34: 4}, at10={35: 2}),
    10: Plan(14, draw_weigh, {0: 40, **FEW, 20: 3, 21: 2, 22: 4, 23: 2, 30: 2, 31: 2, 32: 2, 33: 4, 34: 3, 37: 28},
             at8={24: 2}),
    11: Plan(20, draw_compare, {0: 50, "equal": 8, **FEW, 25: 6, **{
        label: 2 for n in (10, 11, 12, 13, 14, 15, 16, 17, 18) for label in (n, f"right{n}")}},
        at5={19: 2, "right19": 2}, at10={35: 2}),
    12: Plan(20, draw_salvage, {
        0: 14, "torn10": 20, "torn11": 5, "torn12": 4, "torn13": 4, "torn14": 4, **FEW, 10: 3, 13: 3, 15: 3, 16: 5, 17: 3,
        "inside15": 3, "inside16": 4, "inside17": 5, 22: 6, 30: 3}, at5={"torn19": 5}, at8={24: 3}, at10={35: 2}),
    13: Plan(16, draw_settings_read, {0: 12, 10: 5, 12: 3, 13: 5, 18: 4, 41: 3, 42: 4}, at10={35: 4}),
    14: Plan(8, draw_settings_write, {0: 10, 22: 4, 41: 3}, at10={35: 3}),
    15: Plan(4, draw_settings_edit, {0: 1}),
}


def chosen(rng, weights):
    return rng.choices(list(weights), list(weights.values()))[0]


def drawn_case(code, rng, orders, target=None):
    """(takes, answer): with the label asked for, or else one drawn by weight, if it can be had; now and
    then arguments that aim at an Order, whatever the answer is."""
    op, plan = OPS[code], PLANS[code]
    aims = target is None and plan.aims(orders) and rng.random() < 0.4
    if target is None and not aims:
        target = chosen(rng, plan.labels(orders))
    roomy, got = rng.random() < 0.03, None
    usual = plan.usual + (900 if 10 in orders and (aims or target == 15) else 0)        # 64 levels want cells
    for turn in range(2 * TRIES):
        if aims:
            args = draw_jobs.aimed(plan.aim, rng, orders)
            args = as_read(*args) if plan.aim == "read" else args
        else:
            args = plan.draw(rng, orders, target)
        takes = {name: v for (name, _, _), v in zip(op.takes, args)}
        size = size_of(op, takes)
        if size is None or (size > usual and not roomy):
            continue
        if target in (24, 30, 34, 36) and 10 in orders and "D" in takes and rng.random() < 0.3:
            takes["D"] = 65                                 # 35 comes after these
        got = takes, op.ask(orders, **takes)
        if aims:
            break
        dull = got[1].get("depth", 1) == 0 and target == 0 and rng.random() < 0.7
        if (op.label(*got) == target and not dull) or turn >= TRIES:
            break
    return got


def make_drawn(seed, count, path, orders=LANDED):
    rng = random.Random("-".join(map(str, sorted(orders))) + f"/{seed}" if orders else f"0/{seed}")
    out, shares, due = Writer(path, orders), {code: PLANS[code].share for code in known(orders)}, []
    if orders:                                              # each label comes up, now and then in turn
        due = [(code, label) for code in shares for label in PLANS[code].labels(orders)] * max(1, count // 700)
        rng.shuffle(due)
    for left in range(count, 0, -1):
        if due and (left <= len(due) or rng.random() < 0.3):
            code, target = due.pop()
        else:
            code, target = chosen(rng, shares), None
        while not out.add(code, *drawn_case(code, rng, orders, target)):
            pass
    out.close()


# ---------------------------------------------------------------- edges

def make_edges(seed, count, path, orders=LANDED):
    rng = random.Random("/".join(["edges", *map(str, sorted(orders)), str(seed)]))
    out = Writer(path, orders)
    for code, takes in edges.cases(rng, orders):
        if size_of(OPS[code], takes) is not None:
            out.add(code, takes, OPS[code].ask(orders, **takes))
        if out.count >= count:
            break
    out.close()


# ---------------------------------------------------------------- check

def same(answer, again):
    """Whether the fields of an answer are those of the model's, which may have more."""
    if isinstance(answer, dict):
        return all(same(v, again[name]) for name, v in answer.items())
    if isinstance(answer, list) and answer and isinstance(answer[0], dict):
        return len(answer) == len(again) and all(map(same, answer, again))
    return answer == again


def agrees(code, b, orders, seen):
    """Whether a case is one of these Orders, within the bounds, and answered as the model does."""
    if code not in known(orders):
        return False
    op = OPS[code]
    try:
        takes, answer = parse(op, orders, b)
    except ValueError:
        return False
    tally(seen, code, takes, answer)
    return len(b) <= MOST_BODY and size_of(op, takes) is not None and same(answer, op.ask(orders, **takes))


def check(path, orders=LANDED):
    good, bad, first, seen = 0, 0, None, {}
    for j, (code, b) in enumerate(bodies(path)):
        right = agrees(code, b, orders, seen)
        good, bad = good + right, bad + (not right)
        if not right and first is None:
            first = j, code
    histogram(seen)
    if first:
        print("first other case: number %d, op %d" % first)
    print(f"{good} agree, {bad} differ")
    return 1 if bad else 0


def main(argv):
    how, rest = argv[:1], argv[1:]
    try:
        if how in (["drawn"], ["edges"]) and len(rest) in (3, 4):
            make = make_drawn if how == ["drawn"] else make_edges
            return make(rest[0], int(rest[1]), rest[2], *map(orders_named, rest[3:]))
        if how == ["check"] and len(rest) in (1, 2):
            return check(rest[0], *map(orders_named, rest[1:]))
    except (OSError, ValueError) as e:
        print(e, file=sys.stderr)
        return 2
    print(__doc__)
    return 2


if __name__ == "__main__":
    sys.exit(main(sys.argv[1:]))
