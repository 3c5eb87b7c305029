#!/usr/bin/env python3
"""Runs the smallest input of each listed difference (docs/DIFFERENCES.md) through the crate and the
model, and holds both answers to the list. The last line is 'N inputs, M not as listed'.

Two inputs are types that the crate can't compile: RUSTC (rustc) is run on them, with build/ as its
library folder. The longest request takes half a gigabyte for a moment.
"""
import os
import subprocess
import sys
import tempfile

from ask import HERE, ask, there
import draw
import model

VEC = {name: draw.table_bytes(nodes + [(10, len(nodes) - 1, 0)]) for name, nodes in {
    "()": [(0, 0, 0)], "u8": [(3, 1, 0)], "bool": [(1, 0, 0)], "Option<u16>": [(3, 2, 0), (6, 0, 0)],
    "[u8; 16385]": [(3, 1, 0), (9, 0, 16385)]}.items()}
BITS, F32, OPTIONBOOL = (draw.table_bytes([n]) for n in ((11, 0, 0), (5, 4, 0), (2, 0, 0)))


def read(table, s, D=16, M=65536):
    a = model.read(table, bytes.fromhex(s), D, M, 4096, None, True, orders=model.LANDED)
    return f"refused {a['number']} {a['place']}" if a["number"] else "accepted"


def write(table, *cells):
    a = model.write(table, list(cells), bytes(8), orders=model.LANDED)
    return f"refused {a['number']} {a['place']}"


def append(table, s, k):
    s = bytes.fromhex(s)
    a = model.append(table, s + bytes(8), len(s), k, [], orders=model.LANDED)
    return f"refused {a['number']} {a['place']}"


def longest(table):
    return f"length {model.longest(table, orders=model.LANDED)['length']}"


def compiles(text):
    """Whether the crate's user could build this."""
    with tempfile.TemporaryDirectory() as out:
        run = subprocess.run([os.environ.get("RUSTC", "rustc"), "--edition", "2021", "-L", os.path.join(HERE, "build"), "--extern",
                              "parity_scale_codec", "--out-dir", out, "-"], input=text, text=True, capture_output=True)
    return "compiles" if run.returncode == 0 else "doesn't compile"


def decodes(item):
    return compiles(f"use parity_scale_codec::Decode; fn main() {{ let _ = Vec::<{item}>::decode(&mut &[0u8][..]); }}")


def has_longest(item):
    return compiles(f"use parity_scale_codec::*; fn main() {{ let _ = <{item} as MaxEncodedLen>::max_encoded_len(); }}")


DEPTH, MEMORY = "Maximum recursion depth reached when decoding", "Heap memory limit exceeded while decoding"
SHORT = "Not enough data to"

# what, input, the request or call, how the crate's answer begins, ours, what it has to be
LIST = [
    ("the added count is cut to 32 bits", "`00`, 2^32 units appended", "appunits 00 4294967296",
     "ok 00", append(VEC["()"], "00", 2**32), "refused 33 0"),
    ("", "`00`, 2^32 + 1 units appended", "appunits 00 4294967297",
     "ok 04", append(VEC["()"], "00", 2**32 + 1), "refused 33 0"),
    ("writing a count above 2^32 - 1 panics", "2^32 units", "encunits 4294967296",
     "panic", write(VEC["()"], 2**32), "refused 21 0"),
    ("writing more than 0x1fffffff bits panics", "2^29 bits", "encbits 536870912",
     "panic", write(BITS, 2**29), "refused 14 0"),
    ("vectors of numbers and bit vectors are no level", "`00` as a vector of u8, D 0, M 1", "sdec Vec<u8> 0 1 00",
     "ok", read(VEC["u8"], "00", 0, 1), "refused 15 0"),
    ("", "`00` as a bit vector, D 0, M 1", "sdec BitVec 0 1 00", "ok", read(BITS, "00", 0, 1), "refused 15 0"),
    ("an empty vector isn't charged", "`00` as a vector of bools, D 1, M 0", "sdec Vec<bool> 1 0 00",
     "ok", read(VEC["bool"], "00", 1, 0), "refused 16 0"),
    ("a vector of numbers is short before it is charged", "`04` as a vector of u8, D 1, M 1", "sdec Vec<u8> 1 1 04",
     "err 1 0 " + SHORT, read(VEC["u8"], "04", 1, 1), "refused 16 0"),
    ("an item is charged by its size in Rust", "`04 00` as a vector of Option of u16, D 1, M 4",
     "sdec Vec<Option<u16>> 1 4 0400", "err 1 4 " + MEMORY, read(VEC["Option<u16>"], "0400", 1, 4), "accepted"),
    ("charges come in chunks of 16384 bytes and more", "`02 00 01 00` as a vector of bools, D 1, M 16384",
     "sdec Vec<bool> 1 16384 02000100", "err 4 16384 " + MEMORY, read(VEC["bool"], "02000100", 1, 16384), "refused 16 0"),
    ("", "`06 00 01 00` as a vector of bools, D 1, M 16385", "sdec Vec<bool> 1 16385 06000100",
     "err 4 16384 " + SHORT, read(VEC["bool"], "06000100", 1, 16385), "refused 16 0"),
    ("a refused descent leaves the level raised", "levels in, in, out, in under D 1", "ctron 1 100 - d,d,a,d",
     "ok .x.x", None, None),
    ("no vector of items above 16384 bytes", "`00` as a vector of 16385 bytes each", lambda: decodes("[u8; 16385]"),
     "doesn't compile", read(VEC["[u8; 16385]"], "00"), "accepted"),
    ("", "the same of 16384 bytes each", lambda: decodes("[u8; 16384]"), "compiles", None, None),
    ("no longest length of floats", "f32", lambda: has_longest("f32"), "doesn't compile", longest(F32), "length 4"),
    ("no longest length of OptionBool", "OptionBool", lambda: has_longest("OptionBool"), "doesn't compile",
     longest(OPTIONBOOL), "length 1"),
    ("", "bool, which has one", lambda: has_longest("bool"), "compiles", None, None),
]


def main():
    there()
    answers = dict(zip([q for _, _, q, *_ in LIST if isinstance(q, str)],
                       ask([q for _, _, q, *_ in LIST if isinstance(q, str)])))
    wrong = 0
    for what, given, request, crate, here, want in LIST:
        got = answers[request] if isinstance(request, str) else request()
        right = got.startswith(crate) and here == want
        wrong += not right
        if what:
            print(what)
        print(f"  {'' if right else 'NOT AS LISTED: '}{given}\n    the crate: {got}" + (f"\n    here: {here}" if here else ""))
    print(f"{len(LIST)} inputs, {wrong} not as listed")
    return 1 if wrong else 0


if __name__ == "__main__":
    sys.exit(main())
