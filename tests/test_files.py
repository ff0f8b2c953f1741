#!/usr/bin/env python3
"""Makes the stdin and the expected stdout of crates/test_files (small plates) and crates/test_files_large (large ones), by document 01.

    python3 tests/test_files.py           writes the four files
    python3 tests/test_files.py --check   only compares: ends with 1 if a file differs

Its author had read the library's source, so it is another computation and not another team's implementation. The records are two stores since
'rt try' ends its interpreter after some million steps, and every other run at a time limit: test_files stays below both, test_files_large does not.

How each answer is computed (cells off the plate have depth 0 throughout):
  drawing  plates of at most 100 cells: each cell against every plunge, by distance. All plates: the balls are painted in
           the order of their depths, the deepest last. Both ways are compared on the small plates.
  listing  plates of at most 100 cells: of all plunges that fit the relief, those inside no other, where a ball is the set of its cells;
           and the sentence of document 01 with erosions (its rungs) as the lowest depth over every cell of the ball. All plates: that
           sentence with erosions from windows, again and again, and the list must draw the relief. All ways are compared.
  reading  field by field, as the table of refusals says.
  rungs    how many it takes until no depth is above 0.
  tidying  drawing, then listing. The check compares the bytes with the tidied file's.
"""
import sys

from plates import (LARGEST_REACH, LAST_EROSION, SMALL, ball, ball_on_plate, distance, each_cell, eroded, eroded_by_balls,
                    highest_near, known_kind, sides_fit)
from plunge_files import EXAMPLE, Refused, end_of, field, file_of, read
from records import COLUMNS, CONSTANT, DOME, LITERAL, NOISE, patterned, refused, shown, stored

READ, DRAW, LIST, TIDY, CHECK, CHAIN, REPEAT, EACH = range(1, 9)


# ---- drawing

def drawn_by_distance(kind, w, h, plunges):
    return [max([d for x, y, r, d in plunges if distance(kind, x, y, u, v) <= r], default=0) for u, v in each_cell(w, h)]


def drawn_by_painting(kind, w, h, plunges):
    plate = [bytearray(w) for _ in range(h)]
    for x, y, r, d in sorted(set(plunges), key=lambda p: p[3]):
        for v in range(y - r, y + r + 1):
            half = r - abs(v - y) if kind == 4 else r
            plate[v][x - half:x + half + 1] = bytes([d]) * (2 * half + 1)
    assert all(len(row) == w for row in plate)
    return list(b"".join(plate))


DRAWINGS = {}


def drawn(kind, w, h, plunges):
    key = (kind, w, h, tuple(plunges))
    if key not in DRAWINGS:
        plate = drawn_by_painting(kind, w, h, plunges)
        if w * h <= SMALL:
            assert plate == drawn_by_distance(kind, w, h, plunges)
        DRAWINGS[key] = plate
    return DRAWINGS[key]


# ---- listing

def listed_as_maximal(kind, w, h, plate):
    fitting = []
    for reach in range(LARGEST_REACH + 1):
        for x, y in each_cell(w, h):
            if ball_on_plate(w, h, x, y, reach):
                cells = frozenset(ball(kind, x, y, reach))
                depth = min(plate[v * w + u] for u, v in cells)
                if depth > 0:
                    fitting.append((cells, depth, (x, y, reach, depth)))
    # a plunge of a lower depth lies inside the one of the lowest depth of its ball
    return [p for cells, depth, p in fitting
            if not any(p != q and depth <= deep and cells <= more for more, deep, q in fitting)]


def listed_by_residues(kind, w, h, plate):
    """The plunges, and the rungs climbed: the smallest number of a rung that is 0 everywhere."""
    before, found, rungs = bytes(plate), [], 0
    while any(before):
        rungs += 1
        after = eroded(kind, w, h, before)
        if w * h <= SMALL:
            assert after == eroded_by_balls(kind, w, h, plate, rungs)
        high = highest_near(kind, w, h, after)
        for i in range(w * h):
            if before[i] > high[i]:
                found.append((i % w, i // w, rungs - 1, before[i]))
        before = after
    assert rungs <= min(LAST_EROSION, (min(w, h) + 1) // 2)
    return found, rungs


LISTINGS = {}


def climbed(kind, w, h, plate):
    """The plunges of a relief, and the rungs climbed for them."""
    key = (kind, w, h, bytes(plate))
    if key not in LISTINGS:
        found, rungs = listed_by_residues(kind, w, h, plate)
        assert found == sorted(found, key=lambda p: (p[2], p[1], p[0]))
        if w * h <= SMALL:
            assert found == listed_as_maximal(kind, w, h, plate)
        assert drawn(kind, w, h, found) == list(plate)
        LISTINGS[key] = found, rungs
    return LISTINGS[key]


def listed(kind, w, h, plate):
    return climbed(kind, w, h, plate)[0]


# ---- files

def list_of(kind, w, h, plate):
    """The file of a relief's list, and the rungs climbed."""
    plunges, rungs = climbed(kind, w, h, plate)
    return file_of(kind, w, h, plunges), rungs


def tidied(kind, w, h, plunges):
    return list_of(kind, w, h, drawn(kind, w, h, plunges))[0]


def first_unlike(one, other):
    for i, (a, b) in enumerate(zip(one, other)):
        if a != b:
            return i
    return min(len(one), len(other))


# ---- what a call prints

def read_text(data):
    try:
        kind, w, h, plunges = read(data)
        return f"read : readable {kind} {w} {h} {len(plunges)}\n"
    except Refused as e:
        return "read : " + refused(*e.args)


def draw_text(data, output):
    try:
        kind, w, h, plunges = read(data)
        if output < w * h:
            raise Refused(4, 0)
        return "draw : drawn\n" + shown(drawn(kind, w, h, plunges)) + "rest kept\n"
    except Refused as e:
        return "draw : " + refused(*e.args) + "rest kept\n"


def file_text(data, rungs, output):
    """What is printed of an answer that is a file."""
    if output < len(data):
        raise Refused(5, len(data))
    return f"listed {len(data)} {(len(data) - 13) // 7} {rungs}\n" + shown(data) + "rest kept\nwork kept\n"


def list_file(r, relief):
    kind, w, h = r["kind"], r["w"], r["h"]
    if not known_kind(kind):
        raise Refused(1, 0)
    if not sides_fit(w, h):
        raise Refused(2, 0)
    if min(len(relief), r["a"], r["b"]) < w * h:
        raise Refused(4, 0)
    return list_of(kind, w, h, relief[:w * h])


def list_text(r, relief):
    try:
        return "list : " + file_text(*list_file(r, relief), r["output"])
    except Refused as e:
        return "list : " + refused(*e.args) + "rest kept\nwork kept\n"


def tidy_text(data, r):
    try:
        kind, w, h, plunges = read(data)
        if min(r["a"], r["b"], r["c"]) < w * h:
            raise Refused(4, 0)
        return "tidy : " + file_text(*list_of(kind, w, h, drawn(kind, w, h, plunges)), r["output"])
    except Refused as e:
        return "tidy : " + refused(*e.args) + "rest kept\nwork kept\n"


def check_text(data, r):
    try:
        kind, w, h, plunges = read(data)
        if min(r["a"], r["b"], r["c"]) < w * h:
            raise Refused(4, 0)
        tidy = tidied(kind, w, h, plunges)
        if tidy != data:
            raise Refused(12, first_unlike(tidy, data))
        return "check : tidy\nwork kept\n"
    except Refused as e:
        return "check : " + refused(*e.args) + "work kept\n"


def each_text(data, r):
    return read_text(data) + draw_text(data, r["output"]) + tidy_text(data, r) + check_text(data, r)


# ---- records

def made(r):
    """The bytes of a record's relief."""
    return patterned(r["pattern"], r["seed"], r["w"], r["h"], r["source"], r["literal"])


def packed(r):
    out = bytes([r["op"], r["kind"]]) + r["w"].to_bytes(2, "big") + r["h"].to_bytes(2, "big")
    out += bytes([r["pattern"], r["seed"]]) + r["source"].to_bytes(2, "big") + r["output"].to_bytes(3, "big")
    for name in "abc":
        out += r[name].to_bytes(2, "big")
    return out + r["literal"]


def chain_text(r):
    relief = made(r)
    text = list_text(r, relief)
    if "refused" not in text:
        text += each_text(list_file(r, relief)[0], r)
    return text


def printed(r):
    op, data = r["op"], r["literal"]
    if op == LIST:
        return list_text(r, made(r))
    if op == CHAIN:
        return chain_text(r)
    if op == REPEAT:
        head, plunge, end = data[:6], data[6:13], data[13:]
        times = (r["output"] - 13) // 7
        assert len(data) == 20 and r["output"] == 13 + 7 * times
        return each_text(head + plunge * times + end, r)
    if op == READ:
        return read_text(data)
    if op == DRAW:
        return draw_text(data, r["output"])
    if op == TIDY:
        return tidy_text(data, r)
    if op == CHECK:
        return check_text(data, r)
    return each_text(data, r)


RECORDS = []


def add(op, kind, w, h, pattern, seed, source, output, a, b, c, literal=b""):
    RECORDS.append(dict(op=op, kind=kind, w=w, h=h, pattern=pattern, seed=seed, source=source, output=output, a=a, b=b, c=c,
                        literal=bytes(literal)))


def add_relief(op, kind, w, h, literal=None, pattern=CONSTANT, seed=5, surplus=0, relief=None, output=None, a=None, b=None):
    """A listing, or a chain with output enough for file and relief; other buffers have a byte for each cell and a surplus."""
    cells = w * h + surplus
    if literal is not None:
        pattern, relief = LITERAL, len(literal)
    if relief is None:
        relief = cells
    if output is None:
        r = dict(kind=kind, w=w, h=h, pattern=pattern, seed=seed, source=relief, a=cells, b=cells, literal=bytes(literal or b""))
        try:
            output = len(list_file(r, made(r))[0]) + surplus
        except Refused:
            output = 40
        if op == CHAIN:
            output = max(output, cells)
    add(op, kind, w, h, pattern, seed, relief, output, cells if a is None else a, cells if b is None else b,
        cells if op == CHAIN else 0, literal or b"")


def add_file(op, data, output=None, a=None, b=None, c=None, surplus=0):
    """A call on a file; work buffers have a byte for each cell, the output what the answer needs, and each a surplus."""
    try:
        kind, w, h, plunges = read(data)
        need = max(w * h if op in (DRAW, EACH) else 0, len(tidied(kind, w, h, plunges)) if op in (TIDY, EACH) else 0)
    except Refused:
        kind, w, h, need = 0, 0, 0, 24
    cells = 0 if op in (READ, DRAW) else w * h + surplus
    add(op, kind, w, h, LITERAL, 0, len(data), need + surplus if output is None else output, cells if a is None else a,
        cells if b is None else b, cells if c is None else c, data)


# ---- what is tried on small plates

MIDDLE9 = [4, 4, 4, 4, 9, 4, 4, 4, 4]
FILE_CALLS = (READ, DRAW, TIDY, CHECK)


def blocks():
    for kinds, w, h, depths in [
            ((4, 8), 1, 1, [7]), ((8, 4), 3, 3, [5] * 9), ((8, 4), 3, 3, MIDDLE9), ((8, 4), 2, 2, [3] * 4),
            ((8, 4), 4, 4, [1] * 16), ((4, 8), 3, 1, [2, 0, 2]), ((4, 8), 3, 3, [0] * 9)]:
        for kind in kinds:
            add_relief(LIST, kind, w, h, depths)
            add_relief(CHAIN, kind, w, h, depths + [255] * 2, surplus=2)
    add_file(EACH, file_of(8, 3, 3, [(1, 1, 0, 4), (1, 1, 1, 4)]))
    assert file_of(8, 3, 3, listed(8, 3, 3, MIDDLE9)) == EXAMPLE


def typed_lists():
    """Lists in other orders, with repeats, plunges inside others, and none."""
    corners = [(0, 0, 0, 5), (2, 0, 0, 5), (0, 2, 0, 5), (2, 2, 0, 5)]
    for kind, w, h, plunges in [
            (8, 3, 3, [(1, 1, 0, 9), (1, 1, 1, 4)]),
            (8, 3, 3, [(1, 1, 1, 4), (1, 1, 0, 9)]),
            (8, 3, 3, [(1, 1, 0, 9), (1, 1, 0, 9), (1, 1, 1, 4)]),
            (8, 3, 3, [(1, 1, 0, 9), (1, 1, 1, 4), (1, 1, 1, 4)]),
            (8, 3, 3, [(1, 1, 0, 9)]),
            (8, 3, 3, [(1, 1, 1, 4)]),
            (8, 3, 3, [(0, 0, 0, 3), (1, 1, 0, 9), (1, 1, 1, 4)]),
            (8, 3, 3, [(1, 1, 0, 9), (2, 2, 0, 5), (1, 1, 1, 4)]),
            (4, 3, 3, corners + [(1, 1, 1, 5)]),
            (4, 3, 3, corners[::-1] + [(1, 1, 1, 5)]),
            (4, 3, 3, [(1, 1, 1, 5)] + corners),
            (4, 3, 3, corners[:3] + [(1, 1, 1, 5)]),
            (8, 3, 3, corners + [(1, 1, 1, 5)]),
            (8, 5, 5, [(2, 2, 2, 3), (2, 2, 1, 2), (2, 2, 0, 3), (1, 1, 1, 3), (3, 3, 1, 4)]),
            (4, 5, 5, [(2, 2, 2, 3), (2, 2, 1, 2), (2, 2, 0, 3), (1, 2, 1, 3), (3, 3, 1, 4)]),
            (8, 4, 2, [(x, y, 0, 1) for x in range(4) for y in range(2)]),
            (8, 4, 2, [(x, y, 0, 1) for y in range(2) for x in range(4)]),
            (4, 1, 1, [(0, 0, 0, d) for d in (3, 200, 7, 255, 1)]),
            (8, 1, 1, [(0, 0, 0, 255)])]:
        add_file(EACH, file_of(kind, w, h, plunges), surplus=3)
    for kind, w, h in [(4, 1, 1), (8, 3, 3), (4, 2, 4), (8, 240, 240)]:
        add_file(READ, file_of(kind, w, h, []))
    for kind, w, h in [(4, 1, 1), (8, 3, 3), (4, 2, 4)]:
        add_file(EACH, file_of(kind, w, h, []), surplus=1)


def random_lists(plates=((4, 5, 4, 4), (8, 5, 4, 4), (4, 7, 3, 9), (8, 4, 4, 10))):
    state = 1

    def pick(n):
        nonlocal state
        state = (state * 1103515245 + 12345) % 2 ** 31
        return (state >> 8) % n

    for kind, w, h, n in plates:
        plunges = []
        while len(plunges) < n:
            p = (pick(w), pick(h), pick(3), 1 + pick(9))
            if ball_on_plate(w, h, *p[:3]):
                plunges.append(p)
        add_file(EACH, file_of(kind, w, h, plunges), surplus=5)


def small_plates():
    for w, h, surplus in [(2, 3, 0), (4, 3, 3)]:
        for kind in (4, 8):
            add_relief(CHAIN, kind, w, h, pattern=NOISE, seed=w + kind, surplus=surplus)


def cuts():
    for op in FILE_CALLS:
        for n in range(len(EXAMPLE)):
            add_file(op, EXAMPLE[:n])
    empty = file_of(4, 2, 1, [])
    for n in range(len(empty) + 1):
        add_file(READ, empty[:n])
    # cut, and the buffers short as well
    for op in (DRAW, TIDY, CHECK):
        for n in (0, 7, 26):
            add_file(op, EXAMPLE[:n], 0, 0, 0, 0)


def faults():
    """Files with one fault: a change of the worked example's fields."""
    off = [field(2, *p) for p in [(0, 1, 1, 4), (1, 0, 1, 4), (2, 1, 1, 4), (1, 2, 1, 4), (3, 1, 0, 4), (1, 3, 0, 4), (255, 255, 0, 4),
                                  (1, 1, 2, 4), (1, 1, 119, 4), (1, 1, 120, 4), (1, 1, 255, 4), (255, 0, 255, 4)]]
    zero = [field(2, 1, 1, 0, 0), field(2, 1, 1, 1, 0)]
    other = [field(1, 8, 3, 3), field(2, 1, 1, 0), field(2, 1, 1, 0, 9, 1), field(2), field(3, 0, 0, 2), field(0, 1, 1, 0, 9),
             field(4, 1, 1, 0, 9), field(255, 1, 1, 0, 9), field(2, 1, 1, 0, 9, size=260), field(2, 1, 1, 0, 9, size=1024), field(3),
             field(3, 0, 0, 0, 2, 0)]
    heads = [field(1, k, 3, 3) for k in (0, 3, 5, 6, 7, 9, 12, 255)]
    heads += [field(1, 8, w, h) for w, h in [(0, 3), (241, 3), (255, 3), (3, 0), (3, 241), (3, 255), (0, 0)]]
    heads += [field(1, 8, 3), field(1, 8, 3, 3, 3), field(2, 8, 3, 3), field(3, 8, 3, 3), field(0, 8, 3, 3), field(1, 8, 3, 3, size=259),
              field(1, 8, 3, 3, size=768), field(2, 1, 1, 0, 9), end_of(0), b"\x02\x00\x04"]
    ends = [end_of(n) for n in (0, 1, 3, 258, 65538, 131072, 2 ** 24 + 2, 2 ** 32 - 1)]
    tails = [b"\0", b"\x02\0\0", field(2, 1, 1, 0, 9), end_of(2), EXAMPLE]
    head, first, second, end = EXAMPLE[:6], EXAMPLE[6:13], EXAMPLE[13:20], EXAMPLE[20:]
    files = [h + first + second + end for h in heads]
    files += [head + p + second + end for p in off + zero + other]
    files += [head + first + p + end for p in (off[0], zero[0], other[0], other[3])]
    files += [head + first + second + e for e in ends] + [EXAMPLE + t for t in tails]
    for data in files:
        add_file(READ, data)
    for n, data in enumerate(files):
        add_file((DRAW, TIDY, CHECK)[n % 3], data)


def pairs():
    """Two faults at once, each pair of these: what is changed, and the bytes put there."""
    changes = [("head", field(1, 6, 3, 3)), ("head", field(1, 8, 241, 3)), ("head", field(1, 6, 3, 0)), ("head", field(2, 8, 3, 3)),
               ("head", field(1, 8, 3, 3, 3)), ("first", field(2, 0, 1, 1, 4)), ("first", field(2, 1, 1, 0, 0)),
               ("first", field(2, 0, 0, 1, 0)), ("first", field(5, 1, 1, 0, 9)), ("second", field(2, 1, 1, 120, 4)),
               ("second", field(2, 1, 1, 1, 0)), ("second", field(2, 1, 1, 1, 4, 4)), ("second", field(1, 8, 3, 3)), ("end", end_of(3)),
               ("end", field(3, 0, 0, 0, 2, 2)), ("end", field(3, 0, 0, 0)), ("end", b""), ("tail", b"\0"), ("cut", b"")]
    for i, one in enumerate(changes):
        for j, other in enumerate(changes[i + 1:]):
            if one[0] == other[0]:
                continue
            parts = dict(head=EXAMPLE[:6], first=EXAMPLE[6:13], second=EXAMPLE[13:20], end=EXAMPLE[20:], tail=b"")
            for where, content in (one, other):
                parts[where] = content
            data = b"".join(parts[name] for name in ("head", "first", "second", "end", "tail"))
            if "cut" in (one[0], other[0]):
                data = data[:-1]
            # every second of them with no room in any buffer
            room = () if (i + j) % 2 else (0, 0, 0, 0)
            add_file(FILE_CALLS[(i + j) % 4], data, *room)


def reaches():
    for w, h, x, y, reach in [(240, 240, 119, 119, 119), (240, 240, 120, 120, 119), (240, 240, 118, 119, 119), (240, 240, 121, 119, 119),
                              (240, 240, 119, 121, 119), (239, 239, 119, 119, 119), (239, 239, 120, 119, 119), (238, 239, 119, 119, 119),
                              (240, 240, 120, 120, 120), (240, 240, 119, 119, 120), (240, 240, 120, 120, 255), (240, 240, 255, 255, 255),
                              (240, 240, 0, 0, 0), (240, 240, 239, 239, 0), (240, 240, 240, 239, 0), (240, 240, 239, 240, 0)]:
        for kind in (4, 8):
            add_file(READ, file_of(kind, w, h, [(x, y, reach, 1)]))


def outputs():
    """Outputs of the length needed, one byte less, and none."""
    for kind, w, h, depths in [(8, 3, 3, MIDDLE9), (4, 3, 3, [5] * 9), (8, 3, 3, [0] * 9), (4, 1, 1, [7])]:
        data = file_of(kind, w, h, listed(kind, w, h, depths))
        for output in (len(data), len(data) - 1, 12, 0):
            add_relief(LIST, kind, w, h, depths, output=output)
            add_file(TIDY, data, output)
        for output in (w * h, w * h - 1, 0):
            add_file(DRAW, data, output)
    # the output is measured by the tidied file, not by the file that came
    for output in (19, 20):
        add_file(TIDY, file_of(8, 3, 3, [(1, 1, 0, 4), (1, 1, 1, 4)]), output)
    # kind, sides, buffers, then the output
    for kind, w, h, relief, a, b, output in [
            (6, 3, 3, 9, 9, 9, 20), (6, 241, 3, 0, 0, 0, 0), (8, 241, 3, 800, 800, 800, 0), (8, 3, 241, 800, 800, 800, 0), (8, 0, 3, 9, 9, 9, 20),
            (4, 3, 0, 9, 9, 9, 20), (8, 65535, 65535, 9, 9, 9, 20), (0, 0, 0, 0, 0, 0, 0), (255, 3, 3, 9, 9, 9, 20), (8, 256, 3, 800, 800, 800, 20),
            (8, 3, 3, 8, 9, 9, 20), (8, 3, 3, 9, 8, 9, 20), (8, 3, 3, 9, 9, 8, 20), (8, 3, 3, 9, 0, 0, 0), (4, 3, 3, 8, 9, 9, 0),
            (8, 3, 3, 9, 9, 8, 0), (8, 3, 3, 9, 9, 9, 19), (8, 240, 240, 9, 9, 9, 20), (4, 240, 1, 239, 240, 240, 20)]:
        add_relief(LIST, kind, w, h, relief=relief, a=a, b=b, output=output)


def work():
    """Each work buffer one byte short, by itself and with another, and an output short as well."""
    for data in (EXAMPLE, file_of(4, 3, 3, [(1, 1, 1, 5), (0, 0, 0, 5)])):
        for a, b, c in [(8, 9, 9), (9, 8, 9), (9, 9, 8), (8, 8, 9), (0, 9, 0), (0, 0, 0), (9, 9, 9), (20, 9, 9), (9, 10, 40)]:
            add_file(TIDY, data, None, a, b, c)
            add_file(CHECK, data, None, a, b, c)
        for a, b, c in [(8, 9, 9), (9, 9, 8), (9, 9, 9), (12, 13, 14)]:
            add_file(TIDY, data, 10, a, b, c)


def unlike_bytes():
    """The check on files that are tidy but for one byte, each byte among them."""
    for i, byte in enumerate(EXAMPLE):
        for value in (byte + 1, byte ^ 128, 0):
            if value != byte:
                add_file(CHECK, EXAMPLE[:i] + bytes([value]) + EXAMPLE[i + 1:])


def unlike_lists(w, h, depths, kinds=(4, 8)):
    """The check on a tidy file, and on that file without one of its plunges, with one twice, in other orders, with one more."""
    for kind in kinds:
        tidy = listed(kind, w, h, depths)
        add_file(CHECK, file_of(kind, w, h, tidy))
        for n in range(len(tidy)):
            add_file(CHECK, file_of(kind, w, h, tidy[:n] + tidy[n + 1:]))
            add_file(CHECK, file_of(kind, w, h, tidy[:n] + [tidy[n]] + tidy[n:]))
            add_file(CHECK, file_of(kind, w, h, tidy[n:] + tidy[:n]))
        for extra in [(1, 1, 0, 1), (1, 1, 0, 3), (0, 0, 0, 200), (1, 1, 1, 1)]:
            add_file(CHECK, file_of(kind, w, h, tidy + [extra]))
            add_file(CHECK, file_of(kind, w, h, [extra] + tidy))


def unlike():
    unlike_bytes()
    unlike_lists(3, 3, [1, 1, 1, 1, 3, 3, 1, 3, 3], (8,))


def narrow():
    for w, h in [(1, 240), (240, 1)]:
        add_file(READ, file_of(8, w, h, [(w - 1, h - 1, 0, 1), (w // 2, h // 2, 0, 2)]))


# ---- what is tried on large plates, and what would take an interpreter too long

def middle_plates():
    for kind in (4, 8):
        for w, h, surplus in [(5, 4, 0), (7, 5, 1), (10, 10, 2), (24, 17, 3)]:
            add_relief(CHAIN, kind, w, h, pattern=NOISE, seed=w + kind, surplus=surplus)
        add_relief(CHAIN, kind, 7, 7, pattern=DOME, surplus=2)
        add_relief(CHAIN, kind, 15, 2, pattern=COLUMNS, seed=200)
    random_lists([(4, 6, 6, 6), (8, 6, 6, 6), (4, 2, 5, 12), (8, 7, 3, 9), (4, 10, 10, 40), (8, 10, 10, 40)])
    unlike_lists(4, 4, [1, 1, 1, 0, 1, 3, 3, 1, 1, 3, 3, 1, 1, 1, 1, 1])
    unlike_lists(5, 3, [7] * 15)


def large_plates():
    for kind in (4, 8):
        for w, h in [(1, 240), (240, 1)]:
            for pattern in (CONSTANT, NOISE, COLUMNS, DOME):
                add_relief(CHAIN, kind, w, h, pattern=pattern, seed=200, surplus=7)
        for w, h, pattern in [(240, 240, CONSTANT), (240, 240, COLUMNS), (240, 240, DOME), (239, 240, CONSTANT), (240, 237, DOME)]:
            add_relief(CHAIN, kind, w, h, pattern=pattern, seed=255, surplus=100)
        add_relief(CHAIN, kind, 200, 239, pattern=NOISE, seed=77)
        add_relief(CHAIN, kind, 240, 240, pattern=CONSTANT, seed=0)


def large_refusals():
    for kind in (4, 8):
        full = len(file_of(kind, 240, 240, listed(kind, 240, 240, [255] * 57600)))
        for output in (full - 1, 0):
            add_relief(LIST, kind, 240, 240, seed=255, output=output)
        for relief, a, b in [(57599, 57600, 57600), (57600, 57599, 57600), (57600, 57600, 57599)]:
            add_relief(LIST, kind, 240, 240, seed=255, relief=relief, a=a, b=b)
        add_relief(CHAIN, kind, 240, 240, pattern=NOISE, seed=3, output=600000)
    for w, h in [(241, 240), (240, 241), (0, 240)]:
        add_relief(LIST, 8, w, h, seed=255, relief=60000, a=60000, b=60000)


def large_files():
    for kind in (4, 8):
        # the four largest balls, in a wrong order; one ball of the largest reach
        four = [(x, y, 119, 1 + x) for x in (120, 119) for y in (120, 119)]
        add_file(EACH, file_of(kind, 240, 240, four))
        add_file(EACH, file_of(kind, 239, 239, [(119, 119, 119, 255)]), surplus=9)
        add_file(EACH, file_of(kind, 240, 240, []))
        one = file_of(kind, 240, 240, [(119, 119, 119, 3)])[:13]
        # 70,000 plunges, more than two bytes can count; then one too few and one too many in the end field
        for number in (70000, 69999, 4464):
            add(REPEAT, kind, 240, 240, LITERAL, 0, 20, 13 + 7 * 70000, 57600, 57600, 57600, one + end_of(number))


def main():
    small = [blocks, typed_lists, random_lists, small_plates, cuts, faults, pairs, reaches, outputs, work, unlike, narrow]
    large = [middle_plates, large_plates, large_refusals, large_files]
    differing = stored("test_files", RECORDS, small, packed, printed)
    differing |= stored("test_files_large", RECORDS, large, packed, printed)
    sys.exit(int(differing))


if __name__ == "__main__":
    main()
