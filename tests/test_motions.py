#!/usr/bin/env python3
"""Makes crates/test_motions/stdin and the expected crates/test_motions/stdout, by document 01 and document 02's N4.

    python3 tests/test_motions.py           writes both files
    python3 tests/test_motions.py --check   only compares: ends with 1 if a file differs

Its author had read the library's source, so it is another computation and not another team's implementation.
Numbers are fractions, rounded to a float exactly where document 01 says 'rounded'; a fraction becomes the nearest float, the even one of two.
Files are read as tests/plunge_files.py reads them.
"""
import struct
import sys
from fractions import Fraction

from plunge_files import EXAMPLE, Refused, end_of, field, file_of, read
from records import refused, stored

INFINITY, MINUS_INFINITY = 0x7FF << 52, 0xFFF << 52
NANS = [INFINITY + 1, INFINITY + (1 << 51), MINUS_INFINITY + 1, MINUS_INFINITY + (1 << 51), 2 ** 63 - 1, 2 ** 64 - 1]
MINUS_ZERO = 1 << 63
LARGEST = INFINITY - 1
# The sink table that a press starts with.
BUILT_IN = [20 * depth + depth * depth // 64 for depth in range(256)]


# ---- floats as bits

def bits(number):
    return int.from_bytes(struct.pack(">d", float(number)), "big")


def number_of(pattern):
    return struct.unpack(">d", pattern.to_bytes(8, "big"))[0]


def rounded(fraction):
    """The nearest float, as a fraction again."""
    return Fraction(float(fraction))


def within(low, high, pattern):
    if pattern % 2 ** 63 >= INFINITY:
        return False
    return low <= Fraction(number_of(pattern)) <= high


# ---- the call

def motions(data, i, scale, table):
    kind, w, h, plunges = read(data)
    half, across, down = scale
    if not (within(Fraction(1, 16), 4, half) and within(0, 1000, across) and within(0, 1000, down)):
        raise Refused(13, 0)
    if i >= len(plunges):
        raise Refused(14, 0)
    half, across, down = (Fraction(number_of(n)) for n in scale)
    x, y, reach, depth = plunges[i]
    changed = i == 0 or plunges[i - 1][2] != reach
    first = [("change", rounded(2 * (2 * reach + 1) * half))] if changed else [("stay",)]
    travel = [rounded(offset + rounded((2 * cell + 1) * half)) for offset, cell in ((across, x), (down, y))]
    micrometres = table[depth] * 11 // 10 if reach == 0 else table[depth]
    return first + [("travel", *travel), ("sink", rounded(Fraction(micrometres, 1000)))]


def printed(record, table=BUILT_IN):
    try:
        return " ".join(" ".join([name] + [f"{bits(n):016x}" for n in numbers]) for name, *numbers in motions(*record, table)) + "\n"
    except Refused as e:
        return refused(*e.args)


def packed(record):
    data, i, scale = record
    return len(data).to_bytes(2, "big") + i.to_bytes(8, "big") + b"".join(n.to_bytes(8, "big") for n in scale) + data


# ---- what is tried

RECORDS = []
PLAIN = (bits(1), bits(0), bits(0))


def add(data, i, scale=PLAIN):
    RECORDS.append((data, i, tuple(scale)))


def one_plunge(x, y, reach, depth):
    return file_of(8, 240, 240, [(x, y, reach, depth)])


def example():
    scales = [PLAIN] + [tuple(map(bits, s)) for s in [(0.1, 0.3, 0.7), (0.0625, 0, 1000), (4, 1000, 0), (1 / 3, 1e-3, 999.999), (2.7, 12.5, 1e-300)]]
    for scale in scales:
        for i in range(3):
            add(EXAMPLE, i, scale)


def changes():
    """Reaches that stay and change, in an order that no tidy file has."""
    plunges = [(5, 5, r, 10 + n) for n, r in enumerate([0, 0, 1, 1, 1, 0, 3, 3, 2, 0, 0, 5])]
    for kind in (4, 8):
        for i in range(len(plunges) + 2):
            add(file_of(kind, 11, 12, plunges), i, (bits(0.3), bits(0.1), bits(77.7)))
    # the same file with a plunge twice, and one of the largest reach
    add(file_of(8, 240, 240, [(119, 120, 119, 9)] * 3), 0)
    add(file_of(8, 240, 240, [(119, 120, 119, 9)] * 3), 1)
    add(file_of(8, 240, 240, [(119, 120, 119, 9), (119, 120, 118, 9)]), 1)


def random_numbers():
    """Every depth, reach, column and row, with scales of random digits in their ranges."""
    state = 7

    def pick(n):
        nonlocal state
        state = (state * 6364136223846793005 + 1442695040888963407) % 2 ** 64
        return (state >> 11) % n

    low, high, most = bits(0.0625), bits(4), bits(1000)
    for n in range(255):
        reach = n % 120
        x, y = (reach + (c + pick(240)) % (240 - 2 * reach) for c in (n, 2 * n))
        scale = (low + pick(high - low + 1), bits(Fraction(pick(10 ** 9), 10 ** 6)), pick(most + 1))
        assert all(within(*ends, s) for ends, s in zip([(Fraction(1, 16), 4), (0, 1000), (0, 1000)], scale))
        add(one_plunge(x, y, reach, n + 1), 0, scale)
    for c in range(0, 240):
        add(one_plunge(c, 239 - c, 0, c + 1), 0, (low + pick(high - low + 1), bits(pick(1000) + pick(1000) / 1000), bits(pick(10) / 10)))


def sinks():
    """Every depth at reach 1, and at reach 0 those that no other record has."""
    for depth in range(1, 256):
        add(one_plunge(1, 1, 1, depth), 0)
    for depth in range(241, 256):
        add(one_plunge(1, 1, 0, depth), 0)


def ends():
    """The ends of each range, one step to either side of them, and numbers of every other sort, alone and with another out of range."""
    others = [0, MINUS_ZERO, 1, MINUS_ZERO + 1, (1 << 52) - 1, 1 << 52, MINUS_ZERO + (1 << 52), bits(-1), bits(-0.0625), bits(1000.5), LARGEST,
              MINUS_ZERO + LARGEST, INFINITY, MINUS_INFINITY] + NANS
    edges = [bits(e) + step for e in (0.0625, 4, 1000) for step in (-1, 0, 1)]
    data = one_plunge(239, 0, 0, 255)
    for n in others + edges:
        add(data, 0, (n, bits(0.1), bits(0.2)))
        add(data, 0, (bits(0.1), n, bits(0.2)))
        add(data, 0, (bits(0.1), bits(0.2), n))
        add(data, 0, (n, n, n))
    # travel at both ends of the ranges, where digits are lost
    for n in others + edges:
        add(data, 0, (bits(4), n, bits(1000)))
        add(data, 0, (bits(0.0625), bits(1000) - 1, n))


def totals():
    for i in (0, 1, 2, 3, 255, 256, 2 ** 32, 2 ** 63, 2 ** 64 - 1):
        add(EXAMPLE, i)
        add(file_of(4, 1, 1, []), i)
        # 13 before 14
        add(EXAMPLE, i, (bits(0), 0, 0))


def bad_files():
    """Faults of the file, which come before 13 and 14."""
    files = [EXAMPLE[:n] for n in range(len(EXAMPLE))] + [EXAMPLE + b"\0", field(1, 6, 3, 3) + EXAMPLE[6:], field(1, 8, 241, 3) + EXAMPLE[6:]]
    files += [EXAMPLE[:6] + field(2, *p) + end_of(1) for p in [(0, 1, 1, 4), (1, 1, 120, 4), (1, 1, 255, 4), (1, 1, 0, 0), (1, 1, 1, 4, 4)]]
    files += [EXAMPLE[:20] + end_of(n) for n in (0, 1, 3)]
    for data in files:
        add(data, 0)
        add(data, 9, (NANS[0], INFINITY, 0))


def main():
    parts = (example, changes, random_numbers, sinks, ends, totals, bad_files)
    sys.exit(int(stored("test_motions", RECORDS, parts, packed, printed)))


if __name__ == "__main__":
    main()
