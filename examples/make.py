"""Writes the example networks of this folder. Run it from the repository's root."""

import os
import sys

sys.path.insert(0, os.path.join(os.path.dirname(__file__), "..", "tests"))
from reference import network_file

HERE = os.path.dirname(os.path.abspath(__file__))


def pairs(lows, highs, allowed):
    return [(i, j) for i in range(lows) for j in range(highs) if allowed(i, j)]


def berm():
    """One tip and one cable."""
    return [(3, "TIP"), (2, "CABLE")], [(0, 1, [(0, 0), (1, 1)])]


def line():
    """A line of seven boreholes: each has a tip, a cable and a multiplexer input; two loggers and the trench are shared.

    Tips: 0 standpipe, 1 low range, 2 middle range, 3 high range. Cables: 0 two-wire, 1 four-wire, 2 armoured,
    3 vented, 4 fibre. Inputs: 0 to 7; the logger reads the inputs of its half.
    """
    holes, tips, cables, inputs = 7, 4, 5, 8
    points = []
    for h in range(holes):
        points += [(tips, f"TIP {h + 1}"), (cables, f"CABLE {h + 1}"), (inputs, f"INPUT {h + 1}")]
    logger, trench = len(points), len(points) + 1
    points += [(2, "LOGGER"), (3, "TRENCH")]
    tip, cable, feed = (lambda h: 3 * h), (lambda h: 3 * h + 1), (lambda h: 3 * h + 2)
    fits = {0: {3}, 1: {0, 1}, 2: {1, 2}, 3: {2, 4}}
    tables = []
    for h in range(holes):
        tables.append((tip(h), cable(h), pairs(tips, cables, lambda t, c: c in fits[t])))
        # armoured cable and fibre end at the upper inputs
        tables.append((cable(h), feed(h), pairs(cables, inputs, lambda c, i: (c in (2, 4)) == (i >= 5) or c == 1)))
        # the deep holes want a high range, the shallow ones none of it
        tables.append((tip(h), trench, pairs(tips, 3, lambda t, d: (t == 3) == (h >= 5) if d == 2 else t != 3)))
    for a in range(holes):
        for b in range(a + 1, holes):
            # an input takes one cable
            tables.append((feed(a), feed(b), pairs(inputs, inputs, lambda i, j: i != j)))
    for h in range(holes):
        # logger 1 has no upper input of the first three holes
        tables.append((feed(h), logger, pairs(inputs, 2, lambda i, l: l == 0 or h >= 3 or i < 5)))
    return points, tables


def main():
    for name, make in (("berm", berm), ("line", line)):
        points, tables = make()
        with open(os.path.join(HERE, f"{name}.net"), "wb") as f:
            f.write(network_file(points, tables))


if __name__ == "__main__":
    main()
