#!/usr/bin/env python3
"""wave.py DIR [D M C] [--orders=ORDERS]    what `wave` prints for the plan in DIR, by the model; with D M C under these limits

The program's own limits are D 16, M 65536 and C 4096, and it lends 4096 cells. ORDERS is 10,2,3 for one, or none;
left out, it is those that have landed.
"""
import os
import sys

HERE = os.path.dirname(os.path.abspath(__file__))
sys.path.insert(0, os.path.join(HERE, "model"))
import model


def files_in(folder):
    found = {}
    for name in ("wave.wtd", "wave.scl"):
        path = os.path.join(folder, name)
        if os.path.exists(path):
            with open(path, "rb") as f:
                found[name] = f.read()
    return found


def main(argv):
    argv, orders = model.orders_option(argv)
    if len(argv) not in (1, 4):
        print(__doc__)
        return 2
    limits = tuple(map(int, argv[1:])) or model.LIMITS
    sys.stdout.write(model.program(files_in(argv[0]), orders=orders, limits=limits))
    return 0


if __name__ == "__main__":
    sys.exit(main(sys.argv[1:]))
