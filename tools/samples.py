#!/usr/bin/env python3
"""The plans of samples/, made from a type and a value that can be read here.

samples.py make           makes samples/: wave.wtd, wave.scl and expected.txt for each plan
samples.py edges DIR      makes plans at the program's own edges in DIR: files at their limits and one
                          byte above, missing files, all 4096 cells with 20 digits each
samples.py try DIR        runs `wave` on every plan in DIR and compares what it prints with
                          expected.txt; the last line is 'N plans, M differ'

The bytes are made by this file's own few lines, and expected.txt by the model (tools/wave.py). `wave` is
run by tools/program, so `./run`, or `rt run` in crates/wave, has to have built it.
"""
import os
import struct
import subprocess
import sys

HERE = os.path.dirname(os.path.abspath(__file__))
sys.path.insert(0, os.path.join(HERE, "model"))
import model

# ---------------------------------------------------------------- types

UNIT, BOOL, LANES = ("unit",), ("bool",), ("lanes",)


def fixed(width): return "fixed", width
def compact(width): return "compact", width
def weight(width): return "float", width
def option(item): return "option", item
def pair(first, second): return "pair", first, second
def array(item, count): return "array", item, count
def vector(item): return "vector", item


KINDS = dict(unit=0, bool=1, fixed=3, compact=4, float=5, option=6, pair=8, array=9, vector=10, lanes=11)


def table(ty):
    """The bytes of a type: each of its parts once, a part before what holds it."""
    nodes = []

    def add(ty):
        a, b = ([add(x) if isinstance(x, tuple) else x for x in ty[1:]] + [0, 0])[:2]
        node = KINDS[ty[0]], a, b
        if node not in nodes:
            nodes.append(node)
        return nodes.index(node)

    add(ty)
    return b"WTD\1\0" + bytes([len(nodes)]) + b"".join(struct.pack("<BBH", *n) for n in nodes)


# ---------------------------------------------------------------- values

class Bits(int):
    """A float by its bits, as for a NaN."""


class Long(list):
    """A list whose count is written in two bytes although one is enough."""


def number(n):
    if n < 64:
        return bytes([n << 2])
    if n < 2**14:
        return struct.pack("<H", n << 2 | 1)
    if n < 2**30:
        return struct.pack("<I", n << 2 | 2)
    size = (n.bit_length() + 7) // 8
    return bytes([(size - 4) << 2 | 3]) + n.to_bytes(size, "little")


def encode(ty, v):
    what, rest = ty[0], ty[1:]
    if what == "unit":
        return b""
    if what == "bool":
        return bytes([v])
    if what == "fixed":
        return v.to_bytes(rest[0], "little")
    if what == "compact":
        return number(v)
    if what == "float":
        return v.to_bytes(rest[0], "little") if isinstance(v, Bits) else struct.pack("<f" if rest[0] == 4 else "<d", v)
    if what == "option":
        return b"\0" if v is None else b"\1" + encode(rest[0], v)
    if what == "pair":
        return encode(rest[0], v[0]) + encode(rest[1], v[1])
    if what == "array":
        return b"".join(encode(rest[0], x) for x in v)
    if what == "vector":
        count = struct.pack("<H", len(v) << 2 | 1) if isinstance(v, Long) else number(len(v))
        return count + b"".join(encode(rest[0], x) for x in v)
    # lanes: a text of 0 and 1, the first lane first
    return number(len(v)) + int(v[::-1] or "0", 2).to_bytes(-(-len(v) // 8), "little")


# ---------------------------------------------------------------- the plans

PARCEL = pair(compact(8), weight(4))                            # id, weight in kilograms
WAVE = pair(vector(fixed(2)), pair(vector(PARCEL), LANES))      # parcels for each chute; the parcels; lanes open
PARCELS = [(7, 1.5), (90017, 0.25), (2**32 + 5, 12.0)]
NAN, OTHER_NAN, INFINITY = Bits(0x7FC00000), Bits(0xFFC00001), Bits(0x7F800000)

# a picture of 65519 bytes or none: 65520 bytes charged, and one byte sent if there is none
PICTURES = pair(vector(option(array(fixed(1), 65519))), vector(fixed(1)))


def cage(levels):
    """A vector in a vector .. around a byte."""
    return vector(cage(levels - 1)) if levels else fixed(1)


def caged(levels):
    return [caged(levels - 1)] if levels else 42


SAMPLES = {
    "first-wave": (WAVE, ([2, 1, 0], (PARCELS, "1011000001"))),
    "long-count": (WAVE, ([2, 1, 0], (Long(PARCELS), "1011000001"))),
    "memory-limit": (PICTURES, ([None], list(range(1, 17)))),
    "memory-below": (PICTURES, ([None], list(range(1, 16)))),
    "missing-weight": (vector(weight(4)), [1.5, NAN, INFINITY, OTHER_NAN, 0.25]),
    "weight-left-out": (vector(weight(4)), [1.5, 0.25, 12.0]),
    "raised-limit": (cage(17), caged(17)),
}
CUT = {"weight-left-out": 4}        # bytes of the message that are left out at its end


# ---------------------------------------------------------------- plans at the program's edges

def edges():
    """Files by plan."""
    byte, bytes_ = table(fixed(1)), table(vector(fixed(1)))
    deep = b"WTD\1\0" + bytes([64]) + struct.pack("<BBH", 3, 1, 0) + b"".join(struct.pack("<BBH", 10, i, 0) for i in range(63))
    digits = array(fixed(8), 4096)
    largest = encode(digits, [2**64 - 1 - i for i in range(4096)])
    return {
        "largest": {"wave.wtd": table(digits), "wave.scl": largest},
        "largest-and-a-byte": {"wave.wtd": table(digits), "wave.scl": largest + b"\0"},
        "one-cell-too-many": {"wave.wtd": table(array(fixed(1), 4097)), "wave.scl": bytes(4097)},
        "all-cells": {"wave.wtd": table(array(fixed(1), 4096)), "wave.scl": bytes(range(256)) * 16},
        "left-over": {"wave.wtd": byte, "wave.scl": bytes(32768)},
        "deep-table": {"wave.wtd": deep, "wave.scl": b"\0"},
        "deepest": {"wave.wtd": deep, "wave.scl": b"\4" * 15 + b"\0"},
        "too-deep": {"wave.wtd": deep, "wave.scl": b"\4" * 16 + b"\0"},
        "large-table": {"wave.wtd": deep + b"\0", "wave.scl": b"\0"},
        "large-table-large-plan": {"wave.wtd": deep + b"\0", "wave.scl": bytes(32769)},
        "bad-table-large-plan": {"wave.wtd": b"WTD", "wave.scl": bytes(32769)},
        "bad-table": {"wave.wtd": b"WTD", "wave.scl": b""},
        "empty-files": {"wave.wtd": b"", "wave.scl": b""},
        "empty-plan": {"wave.wtd": bytes_, "wave.scl": b""},
        "unit": {"wave.wtd": table(UNIT), "wave.scl": b""},
        "no-table": {"wave.scl": b"\0"},
        "no-plan": {"wave.wtd": byte},
        "nothing": {},
    }


def samples():
    for name, (ty, v) in SAMPLES.items():
        message = encode(ty, v)
        yield name, {"wave.wtd": table(ty), "wave.scl": message[:len(message) - CUT.get(name, 0)]}


def make(folder, plans):
    for name, files in plans:
        os.makedirs(os.path.join(folder, name), exist_ok=True)
        expected = model.program(files, orders=model.LANDED)
        for file, b in (*files.items(), ("expected.txt", expected.encode())):
            with open(os.path.join(folder, name, file), "wb") as f:
                f.write(b)
        print(f"{name:24}{expected.splitlines()[0]}")


def try_all(folder):
    program, count, differ = os.path.join(HERE, "program"), 0, 0
    for name in sorted(os.listdir(folder)):
        here = os.path.join(folder, name)
        if not os.path.exists(os.path.join(here, "expected.txt")):
            continue
        with open(os.path.join(here, "expected.txt"), "rb") as f:
            expected = f.read()
        run = subprocess.run([program, "wave", here], capture_output=True)
        same = run.returncode == 0 and run.stdout == expected
        count, differ = count + 1, differ + (not same)
        print(f"{name:24}{'as expected' if same else 'DIFFERS: ' + (run.stdout.decode(errors='replace').splitlines() or ['nothing'])[0]}"
              + (f" {run.stderr.decode(errors='replace').strip()}" if run.stderr else ""))
    print(f"{count} plans, {differ} differ")
    return 1 if differ else 0


def main(argv):
    if argv == ["make"]:
        return make(os.path.join(HERE, "..", "samples"), samples())
    if len(argv) == 2 and argv[0] == "edges":
        return make(argv[1], edges().items())
    if len(argv) == 2 and argv[0] == "try":
        return try_all(argv[1])
    print(__doc__)
    return 2


if __name__ == "__main__":
    sys.exit(main(sys.argv[1:]))
