#!/usr/bin/env python3
"""Compares the crate's two counters (depth_limit.rs, mem_tracking.rs) with the rules', on the same
lists of descents and charges. Where levels and charges fall is the port's own; what a counter does
with them is the crate's.

counters.py lists SEED COUNT                    drawn lists, under limits around their own depth and total
counters.py FILE.hrv... [--orders=ORDERS]       the lists of every read in files, and the answers there

ORDERS are those of the files, 10,2,3 for one, or none; left out, it is those that have landed.

The last line is 'N lists, M differ'; it exits with 1 if M isn't 0.
"""
import random
import sys
from collections import Counter
from itertools import islice

from ask import ask, there
import hrv
import model
from model import TOP

BATCH = 5000
DEPTH, MEMORY = "Maximum recursion depth reached when decoding", "Heap memory limit exceeded while decoding"


class Listing(model.Walk):
    """A reading that notes its descents, charges and ascents, each with the vector's place, and
    meets neither limit."""

    def __init__(self, nodes, s, C, orders):
        super().__init__(nodes, s, None, None, C, orders, False)
        self.steps = []

    def enter(self, depth, charge, at):
        self.depth = max(self.depth, depth)
        self.steps += [("d", at), (f"c{charge}", at)]

    def leave(self):
        self.steps.append(("a", None))


def request(D, M, steps):
    return f"ctr {D} {M} - {','.join(step for step, _ in steps) or '-'}"


def crate_answer(text, steps):
    """(number, place, charge) of the crate's answer: 0, or 15 and 16 at the place of the step refused."""
    words = text.split(" ")
    if words[0] == "ok" and int(words[1]) == len(steps):
        return 0, 0, int(words[2])
    message = " ".join(words[4:])
    if words[0] != "err" or message not in (DEPTH, MEMORY):
        raise OSError(f"the oracle: {text}")
    step, at = steps[int(words[1])]
    if step[0] != ("d" if message == DEPTH else "c"):
        raise OSError(f"the oracle refuses a step of the other counter: {text}")
    return (15 if message == DEPTH else 16), at, 0


# ---------------------------------------------------------------- drawn lists

def drawn(rng):
    """A list of entries and ends, its deepest level and the totals after each charge."""
    steps, depth, deepest, total, totals = [], 0, 0, 0, []
    large = rng.random() < 0.3
    for _ in range(rng.choice((0, 1, 2, 3, 5, 8, 20, 60))):
        if depth and rng.random() < 0.4:
            steps.append(("a", None))
            depth -= 1
            continue
        charge = rng.choice((0, 0, 1, 2, 3, 24, rng.randrange(100), rng.randrange(70000)))
        if large:
            charge = rng.choice((charge, 2**31, 2**32 - 1, 2**62, 2**63 - 1, 2**63, TOP - 1, TOP, rng.getrandbits(64)))
        depth += 1
        steps += [("d", len(totals)), (f"c{charge}", len(totals))]
        deepest, total = max(deepest, depth), total + charge
        totals.append(total)
    return steps, deepest, totals


def ours(D, M, steps):
    """The rules' answer, by the model's own enter."""
    walk, depth = model.Walk([], b"", D, M, 0, model.NONE, False), 0
    try:
        for (step, at), (charge, _) in zip(steps, steps[1:] + [("", None)]):
            if step == "d":
                depth += 1
                walk.enter(depth, int(charge[1:]), at)
            elif step == "a":
                depth -= 1
    except model.Refused as r:
        return r.number, r.place, 0
    return 0, 0, walk.charge


def lists(seed):
    """(D, M, steps, our answer), for ever"""
    rng = random.Random(f"lists/{seed}")
    while True:
        steps, deepest, totals = drawn(rng)
        some = totals[-1:] + rng.sample(totals, min(len(totals), 2))
        for M in sorted({0, 1, TOP} | {min(t + more, TOP) for t in some for more in (0, 1)}):
            for D in sorted({max(deepest - 1, 0), deepest, 2**32 - 1}):
                yield D, M, steps, ours(D, M, steps)


# ---------------------------------------------------------------- the lists of reads

def reads(path, orders=model.LANDED):
    """(D, M, steps, the file's answer) of each read whose table and D are good."""
    for op, q, a in hrv.cases(path, orders):
        if op != 5 or a["number"] in (1, 2, 3, 4, 35):
            continue
        C = min(q["C"], len(q["before"])) if q["flags"] & hrv.LENT else q["C"]
        walk = Listing(model.parse(q["table"], orders), q["message"], C, orders)
        try:
            walk.run()
        except model.Refused:
            pass                    # the steps before the refusal are there
        if a["number"] == 0 and a["depth"] != walk.depth:
            raise ValueError(f"depth {a['depth']} in the file, {walk.depth} levels in its list")
        # other refusals have no charge: the counters refuse nothing before them
        limit = a["number"] in (15, 16)
        yield q["D"], q["M"], walk.steps, (a["number"], a["place"], 0) if limit else (0, 0, None if a["number"] else a["charge"])


# ---------------------------------------------------------------- the run

class Tally:
    def __init__(self):
        self.answers, self.steps, self.differ = Counter(), Counter(), []

    def compare(self, found):
        """found: (D, M, steps, our answer)"""
        found = iter(found)
        while batch := list(islice(found, BATCH)):
            for (D, M, steps, want), text in zip(batch, ask([request(D, M, steps) for D, M, steps, _ in batch])):
                number, place, charge = crate_answer(text, steps)
                self.answers[number] += 1
                self.steps.update(step[0] for step, _ in steps)
                if (number, place) != want[:2] or want[2] not in (None, charge):
                    self.differ.append((D, M, steps, want, text))

    def show(self):
        print(f"{self.steps['d']} descents, {self.steps['c']} charges, {self.steps['a']} ascents; {self.answers[0]} lists pass, "
              f"{self.answers[15]} are refused for depth, {self.answers[16]} for memory")
        self.differ.sort(key=lambda d: len(d[2]))
        for D, M, steps, want, text in self.differ[:10]:
            print(f"DIFFERS: {request(D, M, steps)}\n  number, place, charge {want}; the crate: {text}")
        print(f"{self.answers.total()} lists, {len(self.differ)} differ")
        return 1 if self.differ else 0


def main(argv):
    argv, orders = model.orders_option(argv)
    if not argv or argv[0].startswith("-") or (argv[0] == "lists" and len(argv) != 3):
        print(__doc__)
        return 2
    there()
    tally = Tally()
    try:
        if argv[0] == "lists":
            tally.compare(islice(lists(argv[1]), int(argv[2])))
        else:
            for path in argv:
                tally.compare(reads(path, orders))
        return tally.show()
    except (OSError, ValueError) as e:
        print(e, file=sys.stderr)
        return 2


if __name__ == "__main__":
    sys.exit(main(sys.argv[1:]))
