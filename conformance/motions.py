"""Press motions by exact rational arithmetic, rounded once for each stated rounding."""
import math
from fractions import Fraction

import tables
from guard import bits

LEAST_PITCH, LARGEST_PITCH, LARGEST_OFFSET = Fraction(1, 16), 4, 1000
NONE = bits(0.0)


def rounded(exact):
    """The nearest float, ties to even: Python divides whole numbers so."""
    return exact.numerator / exact.denominator


def within(number, low, high):
    return math.isfinite(number) and low <= Fraction(number) <= high


def scale_is_good(pitch, column_offset, row_offset):
    return (within(pitch, LEAST_PITCH, LARGEST_PITCH) and within(column_offset, 0, LARGEST_OFFSET)
            and within(row_offset, 0, LARGEST_OFFSET))


def travel(offset, cell, pitch):
    product = rounded((2 * cell + 1) * Fraction(pitch))
    return rounded(Fraction(offset) + Fraction(product))


def fused_travel(offset, cell, pitch):
    """What one rounding would give; only to count where the two differ."""
    return rounded(Fraction(offset) + (2 * cell + 1) * Fraction(pitch))


def sink(reach, depth, table):
    """The table's entry in millimetres, with a tenth more at reach 0, rounded down to whole micrometres."""
    worn = Fraction(11, 10) if reach == 0 else 1
    return rounded(Fraction(math.floor(table[depth] * worn), 1000))


def motions(plunges, i, pitch, column_offset, row_offset, table=tables.BUILT_IN):
    """The call's numbers for a readable file: number, changed, place, then width, x, y, sink by their bits."""
    if not scale_is_good(pitch, column_offset, row_offset):
        return 13, 0, 0, NONE, NONE, NONE, NONE
    if i >= len(plunges):
        return 14, 0, 0, NONE, NONE, NONE, NONE
    column, row, reach, depth = plunges[i]
    changed = i == 0 or plunges[i - 1][2] != reach
    width = rounded(2 * (2 * reach + 1) * Fraction(pitch)) if changed else 0.0
    return (0, int(changed), 0, bits(width), bits(travel(column_offset, column, pitch)), bits(travel(row_offset, row, pitch)),
            bits(sink(reach, depth, table)))


# ---- scales to try

SMALLEST = 5e-324
PITCHES = [0.0625, 4.0, math.nextafter(0.0625, 1), math.nextafter(4.0, 0), 0.1, 1 / 3, 1.0,
           math.nextafter(0.0625, 0), math.nextafter(4.0, 5), 0.0, -0.0, SMALLEST, -SMALLEST, 2.2e-308, -1.0, 1e308, math.inf, -math.inf,
           math.nan, -math.nan]
OFFSETS = [0.0, -0.0, 1000.0, SMALLEST, 2.2e-308, math.nextafter(1000.0, 0), 0.1, 999.9,
           math.nextafter(1000.0, 2000), -SMALLEST, -2.2e-308, -1.0, 1e308, math.inf, -math.inf, math.nan, -math.nan]


def some_scale(rng):
    """Three numbers, mostly in range."""
    def pitch():
        chance = rng.random()
        if chance < 0.3:
            return PITCHES[rng.integers(len(PITCHES))]
        return float(rng.uniform(0.0625, 4)) if chance < 0.7 else float(min(4.0, 2.0 ** rng.uniform(-4, 2)))

    def offset():
        chance = rng.random()
        if chance < 0.3:
            return OFFSETS[rng.integers(len(OFFSETS))]
        return float(rng.uniform(0, 1000)) if chance < 0.7 else float(2.0 ** rng.uniform(-60, 9.9))

    return pitch(), offset(), offset()
