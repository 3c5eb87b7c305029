#!/usr/bin/env python3
"""soak.py FIRST LAST CASES [--no-replay] [--no-crate] [--orders=ORDERS]    a soak in parts

For each seed from FIRST to LAST two files of CASES cases are made, one at the edges and one drawn
(model/make.py). Each goes through the program `replay` and, where the crate has an answer, through the
crate and its two counters (crate-oracle/). Fifty seeds with 10000 cases are a million cases. Any
split of the seeds gives the same cases, so parts can run apart and on several machines.

`rt run` in crates/replay and crate-oracle/build.sh have to have been run, or left out by the two flags. A
line is printed for each file, the tables at the end; it exits with 1 if anything differs, and keeps
the file that does. ORDERS is 10,2,3 for one, or none; left out, it is those that have landed, and
`replay` knows no others.
"""
import contextlib
import io
import os
import subprocess
import sys
import tempfile

HERE = os.path.dirname(os.path.abspath(__file__))
sys.path[:0] = [os.path.join(HERE, "crate-oracle"), os.path.join(HERE, "model")]
import confirm
import counters
import make
from ask import there
from model import LANDED, orders_option


def replay(folder, count):
    """The program's last line, and whether it is the right one."""
    run = subprocess.run([os.path.join(HERE, "program"), "replay", folder], capture_output=True, text=True)
    last = (run.stdout.splitlines() or [run.stderr.strip() or "nothing"])[-1]
    return last, run.returncode == 0 and last == f"{count} cases, 0 differ"


def main(argv):
    argv, orders = orders_option(argv)
    flags = [a for a in argv if a.startswith("-")]
    numbers = [int(a) for a in argv if a.isdigit()]
    if len(numbers) != 3 or set(flags) - {"--no-replay", "--no-crate"}:
        print(__doc__)
        return 2
    if orders != LANDED and "--no-replay" not in flags:
        print("replay knows the Orders that have landed: others go with --no-replay", file=sys.stderr)
        return 2
    first, last, count = numbers
    crate, lists, cases, bad = confirm.Tally(), counters.Tally(), 0, 0
    if "--no-crate" not in flags:
        there()
        confirm.know_fixed()
    for seed in range(first, last + 1):
        for how in ("edges", "drawn"):
            folder = tempfile.mkdtemp(prefix=f"soak-{how}-{seed}-")
            path = os.path.join(folder, "vectors.hrv")
            with contextlib.redirect_stdout(io.StringIO()):
                {"edges": make.make_edges, "drawn": make.make_drawn}[how](str(seed), count, path, orders)
            cases += count
            said, good = [], True
            if "--no-replay" not in flags:
                line, good = replay(folder, count)
                said.append(f"replay: {line}")
            if "--no-crate" not in flags:
                before = len(crate.differ), len(lists.differ)
                confirm.compare(path, crate, orders)
                lists.compare(counters.reads(path, orders))
                good = good and before == (len(crate.differ), len(lists.differ))
                said.append(f"the crate: {crate.compared.total()} compared so far, {len(crate.differ)} differ; {len(lists.differ)} lists differ")
            bad += not good
            print(f"seed {seed} {how}: {'; '.join(said)}{'' if good else '; kept: ' + path}", flush=True)
            if good:
                os.remove(path)
                os.rmdir(folder)
    if "--no-crate" not in flags:
        crate.show()
        lists.show()
    print(f"{cases} cases in {2 * (last - first + 1)} files, {bad} files with differences")
    return 1 if bad else 0


if __name__ == "__main__":
    sys.exit(main(sys.argv[1:]))
