#!/usr/bin/env python3
"""Makes the expected crates/test_forms/stdout: which cells a plunge covers and which plunges lie inside another, by document 01's sentences.

    python3 tests/test_forms.py           writes the file
    python3 tests/test_forms.py --check   only compares: ends with 1 if it differs

Balls are sets of cells of the plane: a plunge lies inside another when "its ball's cells are all in the other's ball and its depth is no
greater". Its author had read the library's source, so it is another computation and not another team's implementation.
"""
import os
import sys

from plates import ball
from records import CRATES

SIDE, REACHES, DEPTHS = 4, range(3), (1, 2)
PLUNGES = [(x, y, reach, depth) for depth in DEPTHS for reach in REACHES for y in range(SIDE) for x in range(SIDE)]
PATH = os.path.join(CRATES, "test_forms", "stdout")


def covered(kind, x, y, reach):
    cells = set(ball(kind, x, y, reach))
    return "".join(" " + "".join(".1"[(u, v) in cells] for u in range(SIDE)) for v in range(SIDE))


def printed(kind):
    balls = {plunge: set(ball(kind, *plunge[:3])) for plunge in PLUNGES}
    yield f"kind {kind}"
    for plunge in PLUNGES[:len(PLUNGES) // 2]:
        yield "covers" + covered(kind, *plunge[:3])
    for other in PLUNGES:
        numbers = [n for n, plunge in enumerate(PLUNGES, 1) if balls[plunge] <= balls[other] and plunge[3] <= other[3]]
        yield f"inside {len(numbers)} {sum(numbers)}"


def main():
    content = "".join(line + "\n" for kind in (4, 8) for line in printed(kind))
    if "--check" not in sys.argv[1:]:
        with open(PATH, "w", encoding="ascii") as out:
            out.write(content)
    elif not os.path.exists(PATH) or open(PATH, encoding="ascii").read() != content:
        sys.exit("test_forms: stdout differs")
    print(f"test_forms: {2 * len(PLUNGES)} plunges, {2 * len(PLUNGES) ** 2} pairs, {len(content)} bytes out")


main()
