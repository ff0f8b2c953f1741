#!/usr/bin/env python3
"""Makes the expected crates/test_wide/stdout: clearances in two bytes a cell, and what maps of two bytes a number reach, by waves.

    python3 tests/test_wide.py           writes the file
    python3 tests/test_wide.py --check   only compares: ends with 1 if it differs

A cell's clearance is the number of the wave that comes to it from all cells not in the shape, those about the plate included; what a map
reaches is what waves of falling numbers come to. Its author had read the library's source, so it is another computation and not another
team's implementation.
"""
import os
import sys

from plates import neighbours
from records import CONSTANT, CRATES, DOME, NOISE, patterned, shown

PATH = os.path.join(CRATES, "test_wide", "stdout")
# width, height, pattern, seed, level
CLEARANCES = ((520, 520, CONSTANT, 1, 1), (1000, 41, NOISE, 7, 1), (1024, 20, NOISE, 9, 2), (241, 200, DOME, 0, 30),
              (1, 1000, CONSTANT, 3, 3), (1000, 1, CONSTANT, 3, 4))
# width, height, number of the first 13 bytes
BYTES = ((1000, 41, 1), (300, 300, 1), (300, 300, 0))


def steps(kind, w):
    """The steps to the neighbours, on a plate with a ring about it."""
    return [dy * (w + 2) + dx for dx, dy in neighbours(kind)]


def ringed(w, h, cells, ring):
    """A plate's numbers with a ring of others about them."""
    out = [ring] * (w + 2)
    for y in range(h):
        out += [ring] + cells[y * w:y * w + w] + [ring]
    return out + [ring] * (w + 2)


def inner(w, h, cells):
    return [n for y in range(h) for n in cells[(y + 1) * (w + 2) + 1:(y + 1) * (w + 2) + 1 + w]]


def clearances(kind, w, h, relief, level):
    out = ringed(w, h, [0 if depth < level else None for depth in relief], 0)
    ways, wave, n = steps(kind, w), [i for i, v in enumerate(out) if v == 0], 0
    while wave:
        n, came = n + 1, []
        for i in wave:
            for way in ways:
                j = i + way
                if 0 <= j < len(out) and out[j] is None:
                    out[j] = n
                    came.append(j)
        wave = came
    return inner(w, h, out)


def reached(kind, w, h, numbers):
    """Where a number's ball has cells at distance below it; None is the ring, which no wave enters."""
    ways, left, waves = steps(kind, w), ringed(w, h, numbers, None), {}
    for i, n in enumerate(left):
        if n:
            waves.setdefault(n, []).append(i)
    n = max(waves, default=0)
    while n > 1:
        for i in waves.pop(n, ()):
            if left[i] > n:
                continue
            for way in ways:
                j = i + way
                if left[j] is not None and left[j] < n - 1:
                    left[j] = n - 1
                    waves.setdefault(n - 1, []).append(j)
        n -= 1
    return [1 if v else 0 for v in inner(w, h, left)]


def printed(what, kind, w, h, content):
    return f"{what} {kind} {w} {h} : {shown(content)}rest kept\n"


def of_kind(kind):
    for w, h, pattern, seed, level in CLEARANCES:
        numbers = clearances(kind, w, h, patterned(pattern, seed, w, h, w * h, None), level)
        yield printed("clearances", kind, w, h, [b for n in numbers for b in divmod(n, 256)])
        yield printed("back", kind, w, h, reached(kind, w, h, numbers))
    for w, h, number in BYTES:
        content = [number] * 13 + [0] * (2 * w * h - 13)
        numbers = [256 * content[2 * i] + content[2 * i + 1] for i in range(w * h)]
        yield printed("back", kind, w, h, reached(kind, w, h, numbers))


def main():
    lines = [line for kind in (4, 8) for line in of_kind(kind)]
    content = "".join(lines)
    if "--check" not in sys.argv[1:]:
        with open(PATH, "w", encoding="ascii") as out:
            out.write(content)
    elif not os.path.exists(PATH) or open(PATH, encoding="ascii").read() != content:
        sys.exit("test_wide: stdout differs")
    print(f"test_wide: {len(lines)} maps, {len(content)} bytes out")


main()
