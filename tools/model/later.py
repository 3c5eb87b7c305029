"""The jobs that come with Orders: the radio reader (1), weight records (4), comparison (7), salvage (12)
and settings (13). tools/README.md lists the Orders; model.py has the rules that these jobs share.
"""
from model import (LIMITS, TOP, Refused, Walk, accepted, appended, compact_at, compact_write, file_of, into,
                   no_optionbool, not_too_deep, over, parse, plan_files, program as plain_program,
                   refused, refused_line, vector_root, wanted)


# ---------------------------------------------------------------- Order 1: the radio reader

MORE, DONE, REFUSED = range(3)     # states


def radio(table, D, M, C, pool, calls, *, orders):
    """A call is (closing, lent, burst): it is lent the first `lent` cells of the pool, as the call
    before left them. A closing call has an empty burst. out: the whole pool after each call.

    Open points: a table or D that is refused is so at the first call, even an empty or a closing one;
    26 goes by the cells lent at the first call, and none of its burst is taken or counted as unread."""
    cells, got, final, answers = list(pool), b"", None, []
    for closing, lent, burst in calls:
        if final is not None:
            answer = dict(final, unread=len(burst) if final["state"] == DONE else 0)
        elif lent < calls[0][1]:
            answer = dict(refused(Refused(26), orders), unread=0, state=REFUSED)
        else:
            got += burst
            answer, written = radio_state(table, D, M, min(C, calls[0][1], 2**32), got, closing, orders)
            cells = over(cells, written)
            if answer["state"] != MORE:
                final = answer
        answers.append(dict(answer, out=list(cells)))
    return answers


def radio_state(table, D, M, C, got, closing, orders):
    """The answer to all bytes so far, and the cells they leave written. So "done" comes with the call that
    settles it, and "more" has no bytes wanted."""
    walk = None
    try:
        nodes = parse(table, orders)
        for i, n in enumerate(nodes):          # only with Order 10 does such a node come here
            if n.kind == 10 and n.a >= i:
                raise Refused(36, i)
        not_too_deep(D, orders)
        walk = Walk(nodes, got, D, M, C, orders, True)
        end = walk.run()
    except Refused as r:
        cells = walk.cells if walk else []
        if r.number == 10 and not closing:
            return dict(refused(Refused(0), orders), unread=0, state=MORE), cells
        return dict(refused(r, orders), unread=0, state=REFUSED), cells
    return dict(accepted(walk, end), unread=len(got) - end, state=DONE), walk.cells


# ---------------------------------------------------------------- Order 4: weights

NO_RECORD = dict(items=0, missing=0, some=0, width=0, lightest=0, heaviest=0,
                 lightest_at=0, heaviest_at=0)


def weight_order(bits, width):
    """None for NaN, else an integer in the floats' order (both zeros are 0)."""
    sign = bits >> (8 * width - 1)
    size = bits & (1 << (8 * width - 1)) - 1
    if size > (0x7F800000 if width == 4 else 0x7FF0000000000000):
        return None
    return -size if sign else size


def record_fits(r, old, width):
    """False is 37. Open: with no weight present the positions are 0 too, and 0 means the bits, so minus
    zero is refused; otherwise the positions, and which float is the larger, are not looked at."""
    if r["items"] != old or r["missing"] > r["items"] or r["width"] != width:
        return False
    if bool(r["some"]) != (r["missing"] < r["items"]):
        return False
    if not r["some"]:
        return r["lightest"] == r["heaviest"] == r["lightest_at"] == r["heaviest_at"] == 0
    return all(0 <= f < 2 ** (8 * width) and weight_order(f, width) is not None
               for f in (r["lightest"], r["heaviest"]))


def weigh(record, floats, width):
    r = dict(record)
    for bits in floats:
        at, x = r["items"], weight_order(bits, width)
        r["items"] += 1
        if x is None:
            r["missing"] += 1
            continue
        if not r["some"] or x < weight_order(r["lightest"], width):
            r["lightest"], r["lightest_at"] = bits, at
        if not r["some"] or x > weight_order(r["heaviest"], width):
            r["heaviest"], r["heaviest_at"] = bits, at
        r["some"] = 1
    return r


def float_width(item):
    """Of a vector's items; 34 if they are no floats."""
    if item.kind != 5:
        raise Refused(34)
    return item.a


def weights_scan(table, s, D, M, C, *, orders):
    """{number, place, wanted, record}"""
    try:
        nodes = parse(table, orders)
        try:
            width = float_width(vector_root(nodes))
        except Refused:                     # open: the scan knows no 30
            raise Refused(34)
        not_too_deep(D, orders)
        walk = Walk(nodes, s, D, M, C, orders, True)
        end = walk.run()
        if end < len(s):
            raise Refused(18, end)
    except Refused as r:
        return dict(number=r.number, place=r.place, wanted=wanted(r, orders), record=dict(NO_RECORD))
    return dict(number=0, place=0, wanted=0,
                record=weigh(dict(NO_RECORD, width=width), walk.cells[1:], width))


def weights_append(table, buf, used, k, cells, record, *, orders):
    """{number, place, used, buf, record}"""
    def fits(old):
        if not record_fits(record, old, width):
            raise Refused(37)
    try:
        nodes = parse(table, orders)
        no_optionbool(nodes, orders)
        width = float_width(vector_root(nodes))
        used1, buf1 = appended(nodes, buf, used, k, cells, orders, fits)
        return dict(number=0, place=0, used=used1, buf=buf1, record=weigh(record, cells, width))
    except Refused as r:
        return dict(number=r.number, place=r.place, used=0, buf=buf, record=dict(record))


# ---------------------------------------------------------------- Order 7: comparison

def compare(table, left, right, D, M, C, room, *, orders):
    """Open: a 10 has the bytes wanted here too. A table number, 35 and 25 have side 0."""
    side = 0
    try:
        nodes = parse(table, orders)
        not_too_deep(D, orders)
        for s in (left, right):
            side += 1
            end = Walk(nodes, s, D, M, C, orders, False).run()
            if end < len(s):
                raise Refused(18, end)
        side = 0
        found = differences(nodes, left, right, orders)
        if len(found) > room:
            raise Refused(25)
    except Refused as r:
        return dict(number=r.number, place=r.place, side=side, wanted=wanted(r, orders), list=[])
    return dict(number=0, place=0, side=0, wanted=0, list=found)


def differences(nodes, left, right, orders):
    """Both messages are readable here."""
    found = []

    def one(s, i, at):
        """End of item i at at; its cells, for a scalar or bit vector."""
        walk = Walk(nodes, s, TOP, 2 * TOP, 2**9999, orders, nodes[i].kind in (1, 2, 3, 4, 5, 11))
        return walk.item(i, at, 0), walk.cells

    def items(i, count, l, r):
        if not nodes[i].idle:
            for _ in range(count):
                l, r = item(i, l, r)
        return l, r

    def skip(s, i, count, at):
        if not nodes[i].idle:
            for _ in range(count):
                at, _ = one(s, i, at)
        return at

    def item(i, l, r):
        n = nodes[i]
        if n.idle:
            return l, r
        if n.kind == 8:
            return item(n.b, *item(n.a, l, r))
        if n.kind == 9:
            return items(n.a, n.b, l, r)
        if n.kind in (6, 7):
            if left[l] != right[r]:
                found.append((l, r, "tag"))
                return one(left, i, l)[0], one(right, i, r)[0]
            if n.kind == 6 and left[l] == 0:
                return l + 1, r + 1
            return item(n.b if n.kind == 7 and left[l] else n.a, l + 1, r + 1)
        if n.kind == 10:
            lc, lu = compact_at(4, left[l:l + 5])
            rc, ru = compact_at(4, right[r:r + 5])
            if lc != rc:
                found.append((l, r, "count"))
            common = min(lc, rc)
            l, r = items(n.a, common, l + lu, r + ru)
            return skip(left, n.a, lc - common, l), skip(right, n.a, rc - common, r)
        lend, lcells = one(left, i, l)
        rend, rcells = one(right, i, r)
        if lcells != rcells:
            found.append((l, r, "bits" if n.kind == 11 else "scalar"))
        return lend, rend

    item(len(nodes) - 1, 0, 0)
    return found


def compare_program(files, *, orders):
    """Open: limits, file sizes and the refusal's line are those of `wave`, room is for as many differences
    as there are cells, and settings aren't read."""
    try:
        table = file_of(files, "wave.wtd", 262)
        left = file_of(files, "left.scl", 32768)
        right = file_of(files, "right.scl", 32768)
    except Refused as r:
        return refused_line(r.number, r.place)
    got = compare(table, left, right, *LIMITS, LIMITS[2], orders=orders)
    if got["number"]:
        return refused_line(got["number"], got["place"])
    return "%d difference\n" % len(got["list"]) + "".join("%d %d %s\n" % d for d in got["list"])


# ---------------------------------------------------------------- Order 12: salvage

def salvage(table, torn, D, M, C, out, *, orders):
    """Open: an item is taken up, and charged, even if no byte of it is there; 15, 16 and 17 inside an item
    refuse the run at that inner item's place, and only the root's own charge has place 0."""
    try:
        nodes = parse(table, orders)
        no_optionbool(nodes, orders)
        child = vector_root(nodes)
        not_too_deep(D, orders)
        walk = Walk(nodes, torn, D, M, C, orders, False)
        claimed, head = walk.compact(4, 0)
        walk.enter(1, 0, 0)
        walk.room(1, 0)
        walk.give(claimed)
        k, at, stopped = 0, head, 0
        if child.idle:
            walk.idle(claimed * child.idle, at)
            k = claimed
        while k < claimed:
            walk.pay(child.foot, 0)
            try:
                at = walk.item(nodes[-1].a, at, 1)
            except Refused as r:
                if r.number in (15, 16, 17):
                    raise
                stopped = r.number
                break
            k += 1
        new = compact_write(4, k) + torn[head:at]
        out1 = into(out, new)
    except Refused as r:
        return dict(number=r.number, place=r.place, k=0, claimed=0, unused=0, stopped=0,
                    length=0, wanted=wanted(r, orders), out=out)
    return dict(number=0, place=0, k=k, claimed=claimed, unused=len(torn) - at, stopped=stopped,
                length=len(new), wanted=0, out=out1)


# ---------------------------------------------------------------- Order 13: settings

def settings_read(b, *, orders):
    """{number, place, wanted, version, D, M, C}"""
    try:
        if len(b) < 5 or b[:3] != b"WLS":
            raise Refused(42)
        version = int.from_bytes(b[3:5], "little")
        if version not in (1, 2):
            raise Refused(41)
        at, numbers = 5, []
        for width in (4, 8) if version == 1 else (4, 8, 8):
            try:
                value, used = compact_at(width, b[at:])
            except Refused as r:
                raise Refused(r.number, at, r.wanted)
            numbers.append(value)
            at += used
        not_too_deep(numbers[0], orders)
        if at < len(b):
            raise Refused(18, at)
    except Refused as r:
        return dict(number=r.number, place=r.place, wanted=wanted(r, orders), version=0, D=0, M=0, C=0)
    D, M, C = (numbers + [4096])[:3]
    return dict(number=0, place=0, wanted=0, version=version, D=D, M=M, C=C)


def settings_write(version, D, M, C, out, *, orders):
    """{number, place, length, out}"""
    try:
        if version not in (1, 2):
            raise Refused(41)
        not_too_deep(D, orders)
        if C != 4096:
            version = 2                     # open: version 1 can't say it, so it isn't written
        new = b"WLS" + version.to_bytes(2, "little") + compact_write(4, D) + compact_write(8, M)
        if version == 2:
            new += compact_write(8, C)
        return dict(number=0, place=0, length=len(new), out=into(out, new))
    except Refused as r:
        return dict(number=r.number, place=r.place, length=0, out=out)


def settings_edit(version, D, M, C, newD, newM, newC):
    """{version, D, M, C}"""
    return dict(version=version if newC == 4096 else 2, D=newD, M=newM, C=newC)


def program(files, *, orders):
    """`wave` with its settings."""
    limits = LIMITS
    if 13 in orders and "wave.wls" in files:
        try:
            plan_files(files)               # 40 comes first, for any of the files
            settings = settings_read(file_of(files, "wave.wls", 64), orders=orders)
            if settings["number"]:
                raise Refused(settings["number"], settings["place"])
        except Refused as r:
            return refused_line(r.number, r.place)
        limits = settings["D"], settings["M"], min(settings["C"], 4096)
    return plain_program(files, orders=orders, limits=limits)
