"""bench.py OUT.md OUT.hrv    the bench plans and the public examples of SCALE, with the model's answers

Each plan is read, and what is accepted is written back; a compact number goes through the compact
reader and writer too. The page and the case file (FORMAT.md) hold the same plans in the same order.
"""
import sys

import model
from draw import WIDTHS, table_bytes
from hrv import LENT, OPS, WHOLE, Writer

LIMITS = model.LIMITS
TOP = model.TOP
U8, U16, U32, BOOL, BITS, OPTIONBOOL = (3, 1, 0), (3, 2, 0), (3, 4, 0), (1, 0, 0), (11, 0, 0), (2, 0, 0)
VEC_U8, VEC_U16 = [U8, (10, 0, 0)], [U16, (10, 0, 0)]


class Bench:
    def __init__(self, path):
        self.out, self.compact, self.plans, self.appends = Writer(path), [], [], []

    def ask(self, code, **takes):
        answer = OPS[code].ask(model.LANDED, **takes)
        self.out.add(code, takes, answer)
        return answer

    def number(self, name, width, text):
        """A compact number: by the compact reader, and as a plan of its own."""
        s = bytes.fromhex(text)
        a = self.ask(1, width=width, s=s)
        back = self.ask(2, width=width, low=a["low"], high=a["high"])["bytes"] if a["number"] == 0 else None
        self.compact.append((name, f"u{8 * width}", spaced(s), a["number"],
                             a["low"] | a["high"] << 64 if back is not None else "", a["used"] if back is not None else "",
                             spaced(back)))
        self.plan(name, [(4, width, 0)], text)

    def plan(self, name, nodes, text, limits=LIMITS, lent=8):
        """lent: cells, each 9 before; None lends none."""
        D, M, C = limits
        table, s, before = table_bytes(nodes), bytes.fromhex(text), [9] * (lent or 0)
        flags = WHOLE if lent is None else WHOLE | LENT
        a = self.ask(5, table=table, message=s, D=D, M=M, C=C, flags=flags, before=before)
        cells, back = [], None
        if a["number"] == 0 and lent is not None:
            cells = a["after"][:a["cells"]]
            w = self.ask(6, table=table, cells=cells, before=bytes(a["bytes"]))
            back = w["after"]
        self.plans.append((name, spaced(table), spaced(s), *limits, "none" if lent is None else lent, a["number"], a["place"],
                           a["bytes"], a["cells"], a["charge"], a["depth"], " ".join(map(str, cells)), spaced(back)))

    def append(self, name, nodes, used, k, cells, room):
        """used: the old bytes, as they are; room: bytes to spare behind them."""
        table, used = table_bytes(nodes), bytes.fromhex(used)
        a = self.ask(7, table=table, before=used + bytes(room), used_before=len(used), k=k, cells=cells)
        self.appends.append((name, spaced(table), shortened(used), len(used), len(used) + room, k, " ".join(map(str, cells)),
                             a["number"], a["place"], a["used"], "unchanged" if a["number"] else shortened(a["after"][:a["used"]])))


def spaced(b):
    return "" if b is None else "`" + b.hex(" ") + "`" if b else "none"


def shortened(b):
    return spaced(b) if len(b) < 24 else spaced(b[:4])[:-1] + " .. " + spaced(b[-4:])[1:] + f" ({len(b)} bytes)"


def bench_plans(b):
    b.number("u64: 2^32", 8, "070000000001")
    b.number("u64: 2^56", 8, "130000000000000001")
    for w in WIDTHS:
        b.number("0 in two bytes", w, "0100")
    b.number("u8: 256", 1, "0104")
    b.number("u8: 255", 1, "fd03")
    b.number("u16: 65536", 2, "02000400")
    for w, first in zip(WIDTHS, ("02", "03", "07", "17", "37")):
        b.number("first byte alone", w, first)
    for name, limits in (("passes 14, then memory", LIMITS), ("passes 14, then depth", (0, TOP, TOP)),
                         ("passes 14, then cells", (16, TOP, 4096)), ("passes 14, then short", (16, TOP, TOP))):
        b.plan("bit head 0x1fffffff " + name, [BITS], "feffff7f", limits, lent=None)
    b.plan("bit head 0x20000000", [BITS], "02000080")
    b.plan("two u16s, M 4", VEC_U16, "0801000200", (16, 4, 4096))
    b.plan("two u16s, M 5", VEC_U16, "0801000200", (16, 5, 4096))
    b.plan("two u16s, the program's limits", VEC_U16, "0801000200")
    b.append("63 bytes and one more", VEC_U8, "fc" + bytes(range(1, 64)).hex(), 1, [200], 2)
    b.append("full count, one more", VEC_U8, "03ffffffff", 1, [200], 8)
    b.append("full count, none more", VEC_U8, "03ffffffff", 0, [], 8)


def public_examples(b):
    for value, text in ((0, "00"), (1, "04"), (42, "a8"), (69, "1501"), (65535, "feff0300"),
                        (100000000000000, "0b00407a10f35a")):
        for w in WIDTHS:
            if value < 256**w:
                b.number(f"compact {value}", w, text)
    b.plan("69 as i8", [U8], "45")
    b.plan("42 as u16", [U16], "2a00")
    b.plan("16777215 as u32", [U32], "ffffff00")
    b.plan("false", [BOOL], "00")
    b.plan("true", [BOOL], "01")
    b.plan("u16s 4, 8, 15, 16, 23, 42", VEC_U16, "18040008000f00100017002a00")
    b.plan("Ok(42)", [U8, BOOL, (7, 0, 1)], "002a")
    b.plan("Err(false)", [U8, BOOL, (7, 0, 1)], "0100")
    b.plan("compact 3 and false", [(4, 4, 0), BOOL, (8, 0, 1)], "0c00")
    for name, text in (("none", "00"), ("true", "01"), ("false", "02")):
        b.plan(f"one-byte Option of bool: {name}", [OPTIONBOOL], text)


def page(title, heads, rows):
    yield f"## {title}\n\n"
    yield "| " + " | ".join(heads) + " |\n" + "|---" * len(heads) + "|\n"
    for row in rows:
        yield "| " + " | ".join(map(str, row)) + " |\n"
    yield "\n"


def main(argv):
    if len(argv) != 2:
        print(__doc__)
        return 2
    b = Bench(argv[1])
    bench_plans(b)
    public_examples(b)
    with open(argv[0], "w") as f:
        f.write("# Bench plans and public examples\n\nMade by tools/model/bench.py: the answers are the model's. Lent cells hold 9 before; "
                "an accepted plan's cells are written back\ninto an output of just that length.\n\n")
        f.writelines(page("Compact numbers by the compact reader", ("plan", "width", "bytes", "number", "value", "used", "written back"), b.compact))
        f.writelines(page("Plans, read whole", ("plan", "table", "message", "D", "M", "C", "lent", "number", "place", "bytes", "cells", "charge",
                                                "depth", "cells' values", "written back"), b.plans))
        f.writelines(page("Appends", ("plan", "table", "used bytes", "used", "buffer", "k", "cells", "number", "place", "new used",
                                      "bytes afterwards"), b.appends))
    b.out.close()
    return 0


if __name__ == "__main__":
    sys.exit(main(sys.argv[1:]))
