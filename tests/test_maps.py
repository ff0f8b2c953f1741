#!/usr/bin/env python3
"""Makes the stdin and the expected stdout of crates/test_maps and crates/test_maps_large, by document 01 and by other methods
than the library's.

    python3 tests/test_maps.py           writes the four files
    python3 tests/test_maps.py --check   only compares: ends with 1 if a file differs

Its author had read the library's source, so it is another computation and not another team's implementation.
test_maps has the blocks, small plates and refusals, which 'rt try' runs too; test_maps_large has the long and the large plates:
'rt try' ends its interpreter after some million steps, which these would pass.

How each number is computed (cells off the plate have depth 0 throughout):
  erosions   (rungs) plates of at most 100 cells: the lowest depth over every cell of the ball, off-plate cells included.
             Larger plates: the window of a cell and its neighbours, again and again.
  residues   the sentence of document 01: erosion k-1 minus the highest of erosion k among the cell and its neighbours.
  scores     largest and sum of residues 1 to 120.
  clearance  plates of at most 100 cells: the smallest distance to any cell not in the shape, off-plate cells included.
             Larger plates: breadth-first search over neighbours, from all cells not in the shape, with a ring of
             off-plate cells about the plate.
  axis       the clearance where no neighbour's is larger.
  drawn back plates of at most 100 cells: every cell against every cell. Larger plates: a bucket search from the
             highest number to the lowest, where a neighbour gets one less.
Both ways are computed and compared on the small plates.
"""
import sys

from plates import (LAST_EROSION, SMALL, depth, distance, each_cell, eroded, eroded_by_balls, highest_near, known_kind, neighbours, on_plate,
                    sides_fit)
from records import COLUMNS, CONSTANT, DOME, LITERAL, NOISE, UNTOUCHED, patterned, refused, shown, stored

CELL, CLEARANCE, AXIS, BACK, EROSION, RESIDUE, LARGEST, SUM, VOLUME = range(1, 10)


# ---- erosions, residues, scores

SERIES = {}


def erosions(kind, w, h, plate):
    """Erosions 0 to 120; from the first that is 0 everywhere they are all 0."""
    key = (kind, w, h, bytes(plate))
    if key not in SERIES:
        series = [bytes(plate)]
        for k in range(1, LAST_EROSION + 1):
            series.append(eroded(kind, w, h, series[-1]))
            if w * h <= SMALL and k <= 12:
                assert series[-1] == eroded_by_balls(kind, w, h, plate, k)
        SERIES[key] = series
    return SERIES[key]


RESIDUES = {}


def residue(kind, w, h, plate, k):
    key = (kind, w, h, bytes(plate), k)
    if key not in RESIDUES:
        series = erosions(kind, w, h, plate)
        RESIDUES[key] = [a - b for a, b in zip(series[k - 1], highest_near(kind, w, h, series[k]))]
        assert min(RESIDUES[key]) >= 0
    return RESIDUES[key]


def score(kind, w, h, plate, join):
    every = (residue(kind, w, h, plate, k) for k in range(1, LAST_EROSION + 1))
    return [join(column) for column in zip(*(r for r in every if any(r)))] or [0] * (w * h)


# ---- one level

def clearance_by_pairs(kind, w, h, plate, level):
    outside = [(x, y) for y in range(-1, h + 1) for x in range(-1, w + 1) if depth(plate, w, h, x, y) < level]
    return [min(distance(kind, x, y, *o) for o in outside) for x, y in each_cell(w, h)]


def clearance_by_search(kind, w, h, plate, level):
    found = {}
    edge = [(x, y) for y in range(-1, h + 1) for x in range(-1, w + 1) if depth(plate, w, h, x, y) < level]
    for c in edge:
        found[c] = 0
    away = 0
    near = neighbours(kind)
    while edge:
        away += 1
        more = []
        for x, y in edge:
            for dx, dy in near:
                c = (x + dx, y + dy)
                if on_plate(w, h, *c) and c not in found:
                    found[c] = away
                    more.append(c)
        edge = more
    return [found[c] for c in each_cell(w, h)]


CLEARANCES = {}


def clearance(kind, w, h, plate, level):
    key = (kind, w, h, bytes(plate), level)
    if key not in CLEARANCES:
        CLEARANCES[key] = clearance_by_search(kind, w, h, plate, level)
        if w * h <= SMALL:
            assert CLEARANCES[key] == clearance_by_pairs(kind, w, h, plate, level)
    return CLEARANCES[key]


def axis(kind, w, h, plate, level):
    clear = clearance(kind, w, h, plate, level)
    return [c if c == top else 0 for c, top in zip(clear, highest_near(kind, w, h, clear))]


def back_by_pairs(kind, w, h, numbers):
    return [int(any(numbers[v * w + u] > distance(kind, x, y, u, v) for u, v in each_cell(w, h)))
            for x, y in each_cell(w, h)]


def back_by_buckets(kind, w, h, numbers):
    best = list(numbers)
    buckets = [[] for _ in range(256)]
    for c in each_cell(w, h):
        buckets[numbers[c[1] * w + c[0]]].append(c)
    near = neighbours(kind)
    for n in range(255, 1, -1):
        for x, y in buckets[n]:
            if best[y * w + x] != n:
                continue
            for dx, dy in near:
                u, v = x + dx, y + dy
                if on_plate(w, h, u, v) and best[v * w + u] < n - 1:
                    best[v * w + u] = n - 1
                    buckets[n - 1].append((u, v))
    return [int(n > 0) for n in best]


def back(kind, w, h, numbers):
    drawn = back_by_buckets(kind, w, h, numbers)
    if w * h <= SMALL:
        assert drawn == back_by_pairs(kind, w, h, numbers)
    return drawn


# ---- records

def made(r):
    """The bytes of a record's relief buffer."""
    return patterned(r["pattern"], r["seed"], r["w"], r["h"], r["relief"], r.get("literal"))


def packed(r):
    out = bytes([r["op"], r["kind"]])
    for name in "wh":
        out += r[name].to_bytes(2, "big")
    out += r["x"].to_bytes(2, "big") + r["y"].to_bytes(2, "big")
    out += bytes([r["z"], r["pattern"], r["seed"]])
    for name in ("relief", "output", "work"):
        out += r[name].to_bytes(2, "big")
    return out + bytes(r.get("literal", b""))


def refusal(r):
    """The first refusal met, in the order 1, 2, 3, 4; 0 if none is."""
    op, w, h = r["op"], r["w"], r["h"]
    if op != VOLUME and not known_kind(r["kind"]):
        return 1
    if not sides_fit(w, h):
        return 2
    if op == CELL and (r["z"] == 0 or r["x"] >= w or r["y"] >= h):
        return 3
    if op in (CLEARANCE, AXIS) and r["x"] == 0:
        return 3
    if op in (EROSION, RESIDUE) and not 1 <= r["x"] <= LAST_EROSION:
        return 3
    buffers = [r["relief"]]
    if op not in (CELL, VOLUME):
        buffers.append(r["output"])
    if op in (EROSION, RESIDUE, LARGEST, SUM):
        buffers.append(r["work"])
    return 4 if min(buffers) < w * h else 0


def answer(r):
    """The map of an accepted call, or its value."""
    op, kind, w, h, x = r["op"], r["kind"], r["w"], r["h"], r["x"]
    plate = made(r)[:w * h]
    if op == CELL:
        return clearance(kind, w, h, plate, r["z"])[r["y"] * w + x]
    if op == CLEARANCE:
        return clearance(kind, w, h, plate, x)
    if op == AXIS:
        return axis(kind, w, h, plate, x)
    if op == BACK:
        return back(kind, w, h, plate)
    if op == EROSION:
        return erosions(kind, w, h, plate)[x]
    if op == RESIDUE:
        return residue(kind, w, h, plate, x)
    if op == VOLUME:
        return sum(plate)
    return score(kind, w, h, plate, max if op == LARGEST else sum)


def printed(r):
    first = f"{r['op']} {r['kind']} {r['w']} {r['h']} : "
    number = refusal(r)
    got = None if number else answer(r)
    if r["op"] in (CELL, VOLUME):
        return first + (refused(number, 0) if number else f"value {got}\n")
    out = [UNTOUCHED] * r["output"]
    if not number:
        assert max(got) <= 255 and len(got) == r["w"] * r["h"]
        out[:len(got)] = got
    text = first + (refused(number, 0) if number else "ok\n") + shown(out)
    if number and r["op"] in (EROSION, RESIDUE, LARGEST, SUM):
        text += "work kept\n"
    return text


# ---- what is tried

RECORDS = []


def add(op, kind, w, h, x=0, y=0, z=0, pattern=CONSTANT, seed=5, literal=None, relief=None, output=None, work=None,
        surplus=0):
    """One record; buffers have width times height bytes and a surplus, or the length given."""
    cells = w * h + surplus
    if literal is not None:
        pattern, relief = LITERAL, len(literal)
    r = dict(op=op, kind=kind, w=w, h=h, x=x, y=y, z=z, pattern=pattern, seed=seed,
             relief=cells if relief is None else relief,
             output=0 if op in (CELL, VOLUME) else cells if output is None else output,
             work=0 if op < EROSION or op == VOLUME else cells if work is None else work)
    if literal is not None:
        r["literal"] = list(literal)
    RECORDS.append(r)


def blocks():
    middle9 = [4, 4, 4, 4, 9, 4, 4, 4, 4]
    for kinds, w, h, depths in [
            ((4, 8), 1, 1, [7]), ((8, 4), 3, 3, [5] * 9), ((8,), 3, 3, middle9), ((8,), 2, 2, [3] * 4),
            ((8,), 4, 4, [1] * 16), ((4, 8), 3, 1, [2, 0, 2]), ((4, 8), 3, 3, [0] * 9)]:
        for kind in kinds:
            add(CLEARANCE, kind, w, h, 1, literal=depths)
            add(CLEARANCE, kind, w, h, 5, literal=depths)
            add(AXIS, kind, w, h, 1, literal=depths)
            add(BACK, kind, w, h, literal=axis(kind, w, h, depths, 1))
            for k in (1, 2):
                add(EROSION, kind, w, h, k, literal=depths)
            for k in (1, 2, 3):
                add(RESIDUE, kind, w, h, k, literal=depths)
            add(LARGEST, kind, w, h, literal=depths)
            add(SUM, kind, w, h, literal=depths)
            add(VOLUME, kind, w, h, literal=depths)
    # the middle-9 block for the other kind, and with surplus bytes in each buffer
    add(SUM, 4, 3, 3, literal=middle9)
    add(AXIS, 4, 3, 3, 1, literal=middle9, output=12)
    add(EROSION, 8, 3, 3, 1, literal=middle9 + [255, 255, 255], output=15, work=10)


def small_plates():
    for n, (w, h) in enumerate([(2, 3), (7, 5), (3, 3)]):
        for kind in (4, 8):
            seed = 10 * n + kind
            plate = dict(pattern=NOISE, seed=seed, surplus=3)
            add(CLEARANCE, kind, w, h, 100, **plate)
            add(AXIS, kind, w, h, 100, **plate)
            add(AXIS, kind, w, h, 1, **plate)
            add(EROSION, kind, w, h, 1, **plate)
            add(RESIDUE, kind, w, h, 1, **plate)
            add(RESIDUE, kind, w, h, 2, **plate)
            add(LARGEST, kind, w, h, **plate)
            add(SUM, kind, w, h, **plate)
            # numbers far larger than the plate: every ball is clipped
            add(BACK, kind, w, h, **plate)
            add(BACK, kind, w, h, literal=[(i * 7 + n) % 3 for i in range(w * h)])
    add(SUM, 4, 7, 5, pattern=DOME)
    add(SUM, 8, 7, 5, pattern=DOME)


def long_plates():
    for w, h in [(1, 240), (240, 1)]:
        for kind in (4, 8):
            add(CLEARANCE, kind, w, h, 128, pattern=NOISE, seed=3, surplus=7)
            add(AXIS, kind, w, h, 1, pattern=CONSTANT, seed=1)
            add(EROSION, kind, w, h, 1, pattern=NOISE, seed=9)
            add(RESIDUE, kind, w, h, 1, pattern=NOISE, seed=9, surplus=7)
            add(SUM, kind, w, h, pattern=COLUMNS, seed=200)
            add(VOLUME, kind, w, h, pattern=NOISE, seed=9, surplus=7)
            add(BACK, kind, w, h, literal=[200 if i == 30 else 0 for i in range(240)])


def large_plates():
    for kind in (4, 8):
        for w, h in [(240, 240), (239, 240)]:
            more = dict(surplus=240)
            add(CLEARANCE, kind, w, h, 1, pattern=CONSTANT, seed=1, **more)
            add(CLEARANCE, kind, w, h, 60, pattern=NOISE, seed=kind, **more)
            add(CLEARANCE, kind, w, h, 5, pattern=COLUMNS, seed=9, **more)
            add(AXIS, kind, w, h, 40, pattern=DOME, **more)
            add(AXIS, kind, w, h, 1, pattern=CONSTANT, seed=255)
            add(BACK, kind, w, h, pattern=DOME, **more)
            add(VOLUME, kind, w, h, pattern=CONSTANT, seed=255, **more)
        for k in (1, 2, 60, 119, 120):
            add(EROSION, kind, 240, 240, k, pattern=CONSTANT, seed=255, surplus=100)
            add(RESIDUE, kind, 239, 240, k, pattern=DOME, surplus=100)
        add(EROSION, kind, 240, 240, 2, pattern=NOISE, seed=77)
        add(RESIDUE, kind, 240, 240, 1, pattern=NOISE, seed=77)
        add(RESIDUE, kind, 240, 240, 120, pattern=CONSTANT, seed=255)
        add(LARGEST, kind, 240, 240, pattern=NOISE, seed=77, surplus=1)
        add(SUM, kind, 239, 240, pattern=DOME)
        add(SUM, kind, 239, 240, pattern=COLUMNS, seed=250, surplus=500)
        for level, x, y in [(1, 0, 0), (1, 239, 239), (1, 119, 120), (3, 239, 0), (1, 17, 200)]:
            add(CELL, kind, 240, 240, x, y, level, pattern=CONSTANT, seed=2)
        for x, y in [(120, 120), (6, 100), (12, 239), (13, 0)]:
            add(CELL, kind, 239, 240, x, y, 9, pattern=COLUMNS, seed=9)
        for x, y in [(3, 2), (0, 0), (6, 4), (2, 3)]:
            add(CELL, kind, 7, 5, x, y, 60, pattern=NOISE, seed=33, surplus=2)
    # nothing to draw back, and more than the plate holds
    add(BACK, 4, 240, 240, pattern=CONSTANT, seed=0)
    add(BACK, 8, 240, 240, pattern=COLUMNS, seed=200)


def refusals():
    maps = (CELL, CLEARANCE, AXIS, BACK, EROSION, RESIDUE, LARGEST, SUM)
    numbered = (CLEARANCE, AXIS, EROSION, RESIDUE)
    room = dict(relief=12, output=12, work=12)
    for op in maps:
        good = dict(x=1, y=1, z=1)
        add(op, 6, 3, 3, **good)
        add(op, 6, 241, 3, **good, **room)              # kind before width
        add(op, 8, 241, 3, **good, **room)
        add(op, 4, 3, 0, **good, **room)
        add(op, 8, 65535, 65535, **good, **room)
        add(op, 8, 3, 3, **good, relief=8)
        if op != CELL:
            add(op, 4, 3, 3, **good, output=8)
        if op >= EROSION:
            add(op, 4, 3, 3, **good, work=8)
            add(op, 4, 3, 3, **good, output=8, work=8)
    for op in numbered:
        add(op, 4, 3, 3, 0)
        add(op, 8, 0, 3, 0, **room)                     # width before number
        add(op, 8, 3, 3, 0, relief=8)                   # number before buffer
    for op in (EROSION, RESIDUE):
        for k in (121, 65535):
            add(op, 8, 3, 3, k)
        add(op, 8, 3, 3, 121, work=0)
        add(op, 0, 3, 241, 0, **room)
        add(op, 8, 3, 3, 120)
    for x, y, z in [(3, 0, 1), (0, 3, 1), (0, 0, 0), (65535, 65535, 1)]:
        add(CELL, 4, 3, 3, x, y, z)
    add(CELL, 8, 3, 3, 3, 1, 1, relief=8)               # cell before buffer
    add(CELL, 8, 3, 241, 0, 241, 0, **room)             # height before cell
    add(CELL, 7, 3, 241, 0, 241, 0, **room)
    for kind, w, h, relief in [(8, 0, 3, 9), (8, 3, 0, 9), (8, 241, 1, 300), (8, 65535, 65535, 9), (8, 3, 3, 8),
                               (6, 3, 3, 9), (6, 241, 3, 2), (4, 240, 240, 57599)]:
        add(VOLUME, kind, w, h, relief=relief)


def main():
    differing = stored("test_maps", RECORDS, (blocks, small_plates, refusals), packed, printed)
    differing |= stored("test_maps_large", RECORDS, (long_plates, large_plates), packed, printed)
    sys.exit(int(differing))


if __name__ == "__main__":
    main()
