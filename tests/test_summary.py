#!/usr/bin/env python3
"""Makes the stdin and the expected stdout of crates/test_summary: a job's figures as text, by document 01's sentences.

    python3 tests/test_summary.py           writes the two files
    python3 tests/test_summary.py --check   only compares: ends with 1 if a file differs

Drawings and lists come from tests/test_files.py (several ways, compared on small plates); the figures are Python's own. Its author had read
the library's source, so it is another computation and not another team's implementation.
"""
import random
import sys

from plunge_files import EXAMPLE, Refused, end_of, field, file_of, read
from records import refused, stored
from test_files import drawn, listed

RECORDS = []
PAGE = 8192


def text_of(data):
    kind, w, h, plunges = read(data)
    relief = drawn(kind, w, h, plunges)
    lines = [f"plate {w} by {h}, kind {kind}", f"plunges {len(plunges)}"]
    for reach in sorted({p[2] for p in plunges}):
        depths = [p[3] for p in plunges if p[2] == reach]
        lines.append(f"reach {reach}: plunges {len(depths)}, depths {min(depths)} to {max(depths)}")
    pairs = list(zip(plunges, plunges[1:]))
    lines.append(f"changes {bool(plunges) + sum(p[2] != q[2] for p, q in pairs)}")
    lines.append(f"travel {sum(abs(p[0] - q[0]) + abs(p[1] - q[1]) for p, q in pairs)} cells")
    lines.append(f"volume {sum(relief)}")
    tidied = file_of(kind, w, h, listed(kind, w, h, bytes(relief)))
    lines.append("tidy yes" if data == tidied else "tidy no")
    return "".join(line + "\n" for line in lines)


def packed(record):
    data, room, place = record
    return b"".join(n.to_bytes(2, "big") for n in (len(data), room, place)) + data


def printed(record):
    data, room, place = record
    try:
        text = text_of(data)
    except Refused as r:
        return refused(*r.args)
    return text[:room - min(place, room)] + "page kept\n"


def add(data, room=PAGE, place=0):
    RECORDS.append((data, room, place))


def tidy(kind, w, h, relief):
    return file_of(kind, w, h, listed(kind, w, h, bytes(relief)))


# ---- files

def small_files():
    """Lists of none and of one, on the smallest plate and on others; the worked example, which is tidy."""
    for kind in (4, 8):
        add(file_of(kind, 1, 1, []))
        add(file_of(kind, 1, 1, [(0, 0, 0, 7)]))
        add(file_of(kind, 240, 1, []))
        add(file_of(kind, 3, 3, [(1, 1, 1, 5)]))
    add(EXAMPLE)
    add(file_of(8, 24, 24, [(23, 23, 0, 255)]))


def untidy_files():
    """Repeats, plunges inside others, any order, the worked example backwards."""
    kind, w, h, plunges = read(EXAMPLE)
    add(file_of(kind, w, h, plunges[::-1]))
    add(file_of(8, 3, 3, [(1, 1, 0, 4), (1, 1, 1, 4)]))
    add(file_of(8, 5, 4, [(1, 1, 1, 9)] * 3))
    add(file_of(4, 7, 7, [(3, 3, 3, 1), (0, 0, 0, 200), (6, 6, 0, 1), (3, 3, 3, 255), (0, 6, 0, 77), (3, 3, 2, 10)]))
    add(file_of(4, 2, 2, [(1, 1, 0, 255), (0, 0, 0, 1), (1, 0, 0, 128)]))
    add(file_of(8, 240, 2, [(0, 0, 0, 1), (239, 1, 0, 1)] * 6))


def of_every_reach():
    """Every reach from the largest down, and from the smallest up; the largest alone, and with others between."""
    rising = [(119, 119, reach, 255 - reach) for reach in range(120)]
    add(file_of(8, 240, 240, rising))
    add(file_of(4, 240, 240, rising[::-1]))
    add(file_of(8, 240, 240, [(120, 120, 119, 255)]))
    add(file_of(4, 239, 239, [(119, 119, 119, 3), (0, 0, 0, 9), (119, 119, 119, 1), (238, 238, 0, 2), (119, 119, 118, 4)]))


def reliefs():
    """Tidy lists of reliefs, then the same lists in any order and with a plunge twice."""
    rnd = random.Random(7)
    for kind, w, h, high in ((4, 6, 5, 3), (8, 9, 9, 255), (4, 24, 24, 2), (8, 24, 24, 4)):
        data = tidy(kind, w, h, [rnd.randrange(high + 1) for _ in range(w * h)])
        add(data)
        plunges = read(data)[3]
        rnd.shuffle(plunges)
        add(file_of(kind, w, h, plunges))
        add(file_of(kind, w, h, sorted(plunges + plunges[:1], key=lambda p: (p[2], p[1], p[0]))))
    terraces = [min(x, y, 239 - x, 239 - y) // 24 * 20 + 1 for y in range(240) for x in range(240)]
    add(tidy(8, 240, 240, terraces))


def unreadable_files():
    """One fault of each sort."""
    add(b"")
    add(EXAMPLE[:-1])
    add(EXAMPLE + b"\0")
    add(file_of(6, 3, 3, []))
    add(file_of(8, 241, 3, []))
    add(file_of(8, 3, 3, [(0, 0, 1, 5)]))
    add(file_of(8, 3, 3, [(1, 1, 0, 0)]))
    add(field(1, 8, 3, 3) + end_of(1))


def pages():
    """Pages that are too short: cut inside a line, at its end, before the text; and text behind other bytes."""
    length = len(text_of(EXAMPLE))
    for room, place in ((0, 0), (1, 0), (1, 1), (30, 0), (30, 29), (length, 0), (length - 1, 0), (length + 5, 5), (length + 5, 6), (200, 100), (50, 4000)):
        add(EXAMPLE, room, place)


if __name__ == "__main__":
    sys.exit(stored("test_summary", RECORDS, (small_files, untidy_files, of_every_reach, reliefs, unreadable_files, pages), packed, printed))
