"""Case files: FORMAT.md describes them. This module reads and writes them and asks the model.

A new op is one entry in OPS: its fields and how the model is asked.
"""
import struct

import later
import model
from model import LANDED, name_of

MARK = b"HRV1"
MOST_BYTES, MOST_CELLS, MOST_BODY = 2048, 512, 16384    # of a blob, of cells, of a body
POOL, CALLS, BURST, ROOM = 128, 12, 300, 128            # of a radio case; of a comparison's list
SIZES = {"u8": 1, "u32": 4, "u64": 8}


# ---------------------------------------------------------------- fields

def names(text):
    """'width:u8 wanted:u64@3' as a list of (name, kind, the Order that brings it or None)."""
    found = []
    for word in text.split():
        name, kind = word.split(":")
        kind, _, order = kind.partition("@")
        found.append((name, kind, int(order) if order else None))
    return found


# kinds that are several fields together
ROWS = dict(
    record=names("items:u64 missing:u64 some:u8 width:u8 lightest:u64 heaviest:u64 lightest_at:u64 heaviest_at:u64"),
    call=names("flags:u8 lent:u32 burst:blob"),
    reply=names("state:u8 number:u8 place:u64 bytes:u64 cells:u64 charge:u64 depth:u64 wanted:u64@3 unread:u64 out:cells"),
    difference=names("left:u64 right:u64 what:u8"))
# lists: of which rows, and the kind of their number; None for a list that goes to the body's end
LISTS = dict(calls=("call", "u8"), replies=("reply", None), differences=("difference", "u32"))


def present(fields, orders):
    return [(name, kind) for name, kind, order in fields if order is None or order in orders]


def put(kind, v, orders):
    if kind in LISTS:
        row, length = LISTS[kind]
        return (put(length, len(v), orders) if length else b"") + b"".join(put(row, x, orders) for x in v)
    if kind in ROWS:
        return b"".join(put(k, v[name], orders) for name, k in present(ROWS[kind], orders))
    if kind == "blob":
        return struct.pack("<I", len(v)) + v
    if kind == "cells":
        return struct.pack("<I", 8 * len(v)) + struct.pack(f"<{len(v)}Q", *v)
    return v.to_bytes(SIZES[kind], "little")


def get(kind, b, at, orders):
    """(value, offset after it)"""
    if kind in LISTS:
        row, length = LISTS[kind]
        count, at = get(length, b, at, orders) if length else (None, at)
        rows = []
        while at < len(b) if count is None else len(rows) < count:
            v, at = get(row, b, at, orders)
            rows.append(v)
        return rows, at
    if kind in ROWS:
        row = {}
        for name, k in present(ROWS[kind], orders):
            row[name], at = get(k, b, at, orders)
        return row, at
    if kind in SIZES:
        end = at + SIZES[kind]
        if end > len(b):
            raise ValueError("a field is cut off")
        return int.from_bytes(b[at:end], "little"), end
    n, at = get("u32", b, at, orders)
    if at + n > len(b) or (kind == "cells" and n % 8):
        raise ValueError("a field is cut off, or has no whole cells")
    raw = b[at:at + n]
    return (list(struct.unpack(f"<{n // 8}Q", raw)) if kind == "cells" else raw), at + n


# ---------------------------------------------------------------- how the model is asked

def ask_compact_read(orders, width, s):
    a = model.compact_read(width, s, orders=orders)
    return dict(a, low=a["value"] & model.TOP, high=a["value"] >> 64)


def ask_compact_write(orders, width, low, high):
    return dict(bytes=model.compact_write(width, low | high << 64))


def ask_check(orders, table):
    return model.check_table(table, orders=orders)


def ask_longest(orders, table):
    return model.longest(table, orders=orders)


WHOLE, LENT = 1, 2                      # the flags of a read


def ask_read(orders, table, message, D, M, C, flags, before):
    a = model.read(table, message, D, M, C, before if flags & LENT else None, bool(flags & WHOLE), orders=orders)
    return dict(a, after=a["out"] or [])


def ask_write(orders, table, cells, before):
    a = model.write(table, cells, before, orders=orders)
    return dict(a, after=a["out"])


def ask_append(orders, table, before, used_before, k, cells):
    a = model.append(table, before, used_before, k, cells, orders=orders)
    return dict(a, after=a["buf"])


CLOSING = 1                             # the flag of a call


def ask_radio(orders, table, D, M, C, pool, calls):
    calls = [(c["flags"] & CLOSING, c["lent"], c["burst"]) for c in calls]
    return dict(answers=later.radio(table, D, M, C, pool, calls, orders=orders))


def ask_scan(orders, table, message, D, M, C):
    return later.weights_scan(table, message, D, M, C, orders=orders)


def ask_weigh(orders, table, before, used_before, k, cells, record_before):
    a = later.weights_append(table, before, used_before, k, cells, record_before, orders=orders)
    return dict(a, after=a["buf"])


WHAT = dict(scalar=1, tag=2, count=3, bits=4)


def ask_compare(orders, table, left, right, D, M, C, room):
    a = later.compare(table, left, right, D, M, C, room, orders=orders)
    return dict(a, list=[dict(left=l, right=r, what=WHAT[word]) for l, r, word in a["list"]])


def ask_salvage(orders, table, torn, D, M, C, before):
    a = later.salvage(table, torn, D, M, C, before, orders=orders)
    return dict(a, after=a["out"])


def ask_settings_read(orders, record):
    return later.settings_read(record, orders=orders)


def ask_settings_write(orders, version, D, M, C, before):
    a = later.settings_write(version, D, M, C, before, orders=orders)
    return dict(a, after=a["out"])


def ask_settings_edit(orders, version, D, M, C, newD, newM, newC):
    return later.settings_edit(version, D, M, C, newD, newM, newC)


# ---------------------------------------------------------------- what is counted of a case

def label_number(takes, answer):
    return answer.get("number", 0)


def label_radio(takes, answer):
    """26 if a call got it, else how the last call left things: 'more' or the number."""
    last = answer["answers"][-1]
    if any(a["number"] == 26 for a in answer["answers"]):
        return 26
    return "more" if last["state"] == later.MORE else last["number"]


def label_compare(takes, answer):
    """The number, with 'right' before it at side 2; 'equal' for an empty list."""
    if answer["number"] == 0 and not answer["list"]:
        return "equal"
    return "right%d" % answer["number"] if answer["side"] == 2 else answer["number"]


def label_salvage(takes, answer):
    """The number, 'torn' and what stopped it, or 'inside' and the limit that an item broke."""
    if answer["number"] in (15, 16, 17) and answer["place"]:
        return "inside%d" % answer["number"]
    return "torn%d" % answer["stopped"] if answer["stopped"] else answer["number"]


# ---------------------------------------------------------------- the ops

class Op:
    """takes, gives: the fields. ask(orders, **takes): the model's answer. since: the Order that brings
    the op. label(takes, answer): what a case is counted as, the number unless the op needs more."""

    def __init__(self, name, takes, gives, ask, since=None, label=label_number):
        self.name, self.takes, self.gives = name, names(takes), names(gives)
        self.ask, self.since, self.label = ask, since, label


OPS = {
    1: Op("compact read", "width:u8 s:blob", "number:u8 low:u64 high:u64 used:u64 wanted:u64@3", ask_compact_read),
    2: Op("compact write", "width:u8 low:u64 high:u64", "bytes:blob", ask_compact_write),
    3: Op("table check", "table:blob", "number:u8 place:u64", ask_check),
    4: Op("longest", "table:blob", "number:u8 place:u64 has:u8 length:u64", ask_longest),
    5: Op("read", "table:blob message:blob D:u32 M:u64 C:u64 flags:u8 before:cells",
          "number:u8 place:u64 bytes:u64 cells:u64 charge:u64 depth:u64 wanted:u64@3 after:cells", ask_read),
    6: Op("write", "table:blob cells:cells before:blob", "number:u8 place:u64 length:u64 after:blob", ask_write),
    7: Op("append", "table:blob before:blob used_before:u64 k:u64 cells:cells",
          "number:u8 place:u64 used:u64 after:blob", ask_append),
    8: Op("radio", "table:blob D:u32 M:u64 C:u64 pool:cells calls:calls", "answers:replies", ask_radio,
          since=1, label=label_radio),
    9: Op("weights scan", "table:blob message:blob D:u32 M:u64 C:u64",
          "number:u8 place:u64 wanted:u64@3 record:record", ask_scan, since=4),
    10: Op("weights append", "table:blob before:blob used_before:u64 k:u64 cells:cells record_before:record",
           "number:u8 place:u64 used:u64 after:blob record:record", ask_weigh, since=4),
    11: Op("compare", "table:blob left:blob right:blob D:u32 M:u64 C:u64 room:u32",
           "number:u8 place:u64 side:u8 wanted:u64@3 list:differences", ask_compare, since=7, label=label_compare),
    12: Op("salvage", "table:blob torn:blob D:u32 M:u64 C:u64 before:blob",
           "number:u8 place:u64 k:u64 claimed:u64 unused:u64 stopped:u8 length:u64 wanted:u64@3 after:blob",
           ask_salvage, since=12, label=label_salvage),
    13: Op("settings read", "record:blob", "number:u8 place:u64 wanted:u64@3 version:u32 D:u32 M:u64 C:u64",
           ask_settings_read, since=13),
    14: Op("settings write", "version:u32 D:u32 M:u64 C:u64 before:blob", "number:u8 place:u64 length:u64 after:blob",
           ask_settings_write, since=13),
    15: Op("settings edit", "version:u32 D:u32 M:u64 C:u64 newD:u32 newM:u64 newC:u64",
           "version:u32 D:u32 M:u64 C:u64", ask_settings_edit, since=13),
}


def known(orders):
    """The codes of the ops that there are with these Orders."""
    return [code for code, op in OPS.items() if op.since is None or op.since in orders]


def size_of(op, takes):
    """Bytes of the input, or None if a field is beyond the format's bounds."""
    size = 0
    for name, kind, _ in op.takes:
        v = takes[name]
        if kind == "blob":
            size += len(v)
            fits = len(v) <= MOST_BYTES
        elif kind == "cells":
            size += 8 * len(v)
            fits = len(v) <= (POOL if name == "pool" else MOST_CELLS)
        elif kind == "calls":
            pool = len(takes["pool"])
            size += sum(8 * pool + len(c["burst"]) + 70 for c in v)     # with the pool after each call
            fits = 1 <= len(v) <= CALLS and all(plain_call(c, pool) for c in v)
        elif kind == "record":
            fits = plain_record(v)
        else:
            fits = name != "room" or v <= ROOM
        if not fits:
            return None
    return size


def plain_record(r):
    return r["some"] in (0, 1) and r["width"] in (4, 8) and max(r["lightest"], r["heaviest"]) < 2 ** (8 * r["width"])


def plain_call(c, pool):
    fits = len(c["burst"]) <= BURST if c["flags"] == 0 else c["flags"] == CLOSING and not c["burst"]
    return fits and c["lent"] <= pool


# ---------------------------------------------------------------- files

def body(op, orders, takes, answer):
    return (b"".join(put(kind, takes[name], orders) for name, kind in present(op.takes, orders))
            + b"".join(put(kind, answer[name], orders) for name, kind in present(op.gives, orders)))


def parse(op, orders, b):
    """(takes, answer) of a body."""
    at, parts = 0, ({}, {})
    for part, fields in zip(parts, (op.takes, op.gives)):
        for name, kind in present(fields, orders):
            part[name], at = get(kind, b, at, orders)
    if at != len(b):
        raise ValueError("a body of another length: is the file of these Orders?")
    return parts


class Writer:
    """Writes a file and counts what it holds."""

    def __init__(self, path, orders=LANDED):
        self.file, self.orders, self.count, self.seen = open(path, "wb"), orders, 0, {}
        self.file.write(MARK)

    def add(self, code, takes, answer):
        """False, and nothing written, if the body would be too long."""
        b = body(OPS[code], self.orders, takes, answer)
        if len(b) > MOST_BODY:
            return False
        self.file.write(struct.pack("<BI", code, len(b)) + b)
        self.count += 1
        tally(self.seen, code, takes, answer)
        return True

    def close(self):
        size = self.file.tell()
        self.file.close()
        histogram(self.seen)
        print(f"{self.count} cases, {size} bytes, Orders {name_of(self.orders)}")


def bodies(path):
    """(op, body) of every case, one at a time."""
    with open(path, "rb") as f:
        if f.read(4) != MARK:
            raise ValueError(f"{path}: not a case file")
        while head := f.read(5):
            if len(head) < 5:
                raise ValueError(f"{path}: cut off")
            code, size = struct.unpack("<BI", head)
            b = f.read(size)
            if len(b) < size:
                raise ValueError(f"{path}: cut off")
            yield code, b


def cases(path, orders=LANDED):
    """(op, takes, answer) of every case; both None for an unknown op."""
    for code, b in bodies(path):
        yield (code, *(parse(OPS[code], orders, b) if code in OPS else (None, None)))


def tally(seen, code, takes, answer):
    key = code, OPS[code].label(takes, answer)
    seen[key] = seen.get(key, 0) + 1


def histogram(seen):
    """How often each number is answered, op by op."""
    for code, op in OPS.items():
        row = sorted(((label, n) for (c, label), n in seen.items() if c == code), key=lambda p: (isinstance(p[0], str), p[0]))
        if row:
            print(f"op {code:2} {op.name:<14}", " ".join(f"{label}:{n}" for label, n in row))
