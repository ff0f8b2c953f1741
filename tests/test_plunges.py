#!/usr/bin/env python3
"""Makes the stdin and the expected stdout of crates/test_plunges: what `plunges` writes for scans of every sort, by document 01.

    python3 tests/test_plunges.py           writes the two files
    python3 tests/test_plunges.py --check   only compares: ends with 1 if a file differs

Lists come from tests/test_files.py (three ways, compared on small plates); the lines are Python's own. Its author had read the library's
source, so it is another computation and not another team's implementation.
"""
import sys

from plates import known_kind, sides_fit
from records import refused, shown, stored
from test_files import listed

FILE_BUFFER = 65536
SHORT = 256
RECORDS = []


def text_of(scan):
    kind, w, h = (list(scan[:3]) + [0, 0, 0])[:3]
    depths = scan[3:]
    if not known_kind(kind):
        return refused(1, 0)
    if not sides_fit(w, h):
        return refused(2, 0)
    if len(depths) < w * h:
        return refused(4, 0)
    plunges = listed(kind, w, h, bytes(depths[:w * h]))
    needed = 13 + 7 * len(plunges)
    if needed > FILE_BUFFER:
        return refused(5, needed)
    lines = [f"plate {kind} {w} {h}\n"] + [f"{reach} {row} {column} {depth}\n" for column, row, reach, depth in plunges]
    return "".join(lines) + f"total {len(plunges)}\n"


def scan_of(record):
    literal, count, turn, rest, byte = record
    return bytes(literal) + bytes(turn[i % 2] for i in range(count)) + bytes([byte]) * rest


def packed(record):
    literal, count, turn, rest, byte = record
    return len(literal).to_bytes(2, "big") + count.to_bytes(2, "big") + bytes(turn) + rest.to_bytes(2, "big") + bytes([byte]) + bytes(literal)


def printed(record):
    scan = scan_of(record)
    text = text_of(scan)
    if len(text) > SHORT:
        text = f"bytes {len(text)} " + shown(text.encode())
    return f"scan {len(scan)}\n{text}"


def add(literal, count=0, turn=(0, 0), rest=0, byte=0):
    RECORDS.append((literal, count, turn, rest, byte))


# ---- scans

def short_scans():
    """Nothing, a part of the three bytes, kinds and sides out of range, depths missing and too many."""
    for literal in ([], [8], [4], [6], [0], [8, 3], [8, 3, 3], [6, 3, 3], [5, 1, 1, 9], [8, 0, 3], [4, 3, 0], [8, 241, 1], [8, 1, 255],
                    [8, 3, 3] + [4] * 8, [6, 0, 0], [8, 1, 1], [8, 1, 1, 0], [4, 1, 1, 7], [8, 1, 1, 255, 1, 2, 3]):
        add(literal)


def blocks():
    """The worked example, with surplus depths too, and other blocks of document 01."""
    middle = [4, 4, 4, 4, 9, 4, 4, 4, 4]
    add([8, 3, 3] + middle)
    add([8, 3, 3] + middle + [200] * 5)
    add([4, 3, 3] + [5] * 9)
    add([8, 2, 2] + [3] * 4)
    add([8, 4, 4] + [1] * 16)
    add([4, 3, 1, 2, 0, 2])
    add([8, 3, 3], rest=9)


def numerals():
    """Numbers of one, two and three digits in every place of a line."""
    add([8, 12, 12], rest=144, byte=10)
    add([4, 240, 1] + [0] * 9 + [99] + [0] * 89 + [100] + [0] * 140)
    add([8, 1, 240] + [0] * 99 + [9] + [0] * 139 + [255])


def large_plates():
    """The largest plate; a list of 9,360 plunges, which has room in 65,536 bytes, and one of 9,361, which has not; 240 by 240 full of plunges."""
    add([8, 240, 240], rest=57600, byte=5)
    add([8, 240, 240], rest=57599, byte=5)
    for ones in (9360, 9361):
        add([4, 239, 240], count=2 * ones, turn=(1, 0), rest=57360 - 2 * ones)
    add([8, 240, 240], count=57600, turn=(1, 2))
    add([4, 240, 240], rest=59997, byte=0)


if __name__ == "__main__":
    sys.exit(stored("test_plunges", RECORDS, (short_scans, blocks, numerals, large_plates), packed, printed))
