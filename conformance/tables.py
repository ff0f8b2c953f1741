"""Sink tables as fields, made from the request's words alone: a reader, a writer, tables to try, and ways to damage a field."""
import struct
from typing import NamedTuple

ENTRIES, LARGEST = 256, 50000
OPENING = bytes([5, 512 // 256, 512 % 256])
LENGTH = len(OPENING) + 2 * ENTRIES
BUILT_IN = [20 * depth + depth * depth // 64 for depth in range(ENTRIES)]
LEAST = list(range(ENTRIES))
GREATEST = [0, *range(LARGEST - ENTRIES + 2, LARGEST + 1)]


# ---- reading and writing

class Reading(NamedTuple):
    number: int       # 0, or the refusal
    place: int        # of the refusal
    table: tuple = ()


def legal(table, i):
    return table[i] == 0 if i == 0 else table[i - 1] < table[i] <= LARGEST


def first_fault(table):
    """The place of the first entry that breaks the rule, in the table's field; None if none does."""
    return next((len(OPENING) + 2 * i for i in range(ENTRIES) if not legal(table, i)), None)


def read(data):
    if len(data) < len(OPENING):
        return Reading(6, 0)
    if data[:len(OPENING)] != OPENING:
        return Reading(7, 0)
    if len(data) < LENGTH:
        return Reading(6, 0)
    if len(data) > LENGTH:
        return Reading(11, LENGTH)
    table = struct.unpack(f">{ENTRIES}H", data[len(OPENING):])
    fault = first_fault(table)
    return Reading(0, 0, table) if fault is None else Reading(15, fault)


def encode(table):
    """The field of any 256 numbers."""
    return OPENING + struct.pack(f">{ENTRIES}H", *table)


def write(table, room):
    """Number and place of the answer, and the bytes that an output of so many bytes begins with."""
    fault = first_fault(table)
    if fault is not None:
        return 15, fault, b""
    return (5, LENGTH, b"") if room < LENGTH else (0, 0, encode(table))


def lent(table):
    """The numbers as C has them, in the machine's order of bytes."""
    return struct.pack(f"={ENTRIES}H", *table)


# ---- tables

def some_table(rng):
    """A legal table: anywhere, or crowded at the low end or the high one."""
    low, high = [(1, LARGEST), (1, LARGEST), (1, 300), (LARGEST - 300, LARGEST), (1, 3000)][rng.integers(5)]
    return [0, *sorted(int(n) + low for n in rng.choice(high - low + 1, ENTRIES - 1, replace=False))]


def some_numbers(rng):
    """Any 256 numbers: few of them are a legal table."""
    way = rng.integers(5)
    if way == 0:
        return [int(rng.choice([0, 1, LARGEST, LARGEST + 1, 65535]))] * ENTRIES
    if way == 1:
        return some_table(rng)[::-1]
    if way == 2:
        return with_entry(some_table(rng), int(rng.integers(ENTRIES)), int(rng.integers(65536)))
    return [int(n) for n in rng.integers(0, 65536 if way == 3 else 12, ENTRIES)]


def with_entry(table, i, value):
    return [*table[:i], value, *table[i + 1:]]


def entry_ends(table):
    """Tables with one entry at the ends of what the rule allows: for every entry, those beside it, the limit, and one to either side of each."""
    for i in range(ENTRIES):
        beside = [table[j] for j in (i - 1, i, i + 1) if 0 <= j < ENTRIES] + [LARGEST]
        for value in sorted({0, 1, 65535, *(n + step for n in beside for step in (-1, 0, 1))}):
            if 0 <= value <= 65535:
                yield with_entry(table, i, value)


# ---- damage: each of these gives fields, most of them refused

def cuts(field):
    return (field[:length] for length in range(len(field)))


def openings(field):
    """Each byte of tag and length put to all values, in a field that is whole, cut and too long."""
    for at in range(len(OPENING)):
        for value in range(256):
            altered = field[:at] + bytes([value]) + field[at + 1:]
            yield altered
            if value % 16 == 5:
                yield from (altered[:length] for length in (1, 2, 3, 4, 258, LENGTH - 1))
                yield altered + b"\0"


def surplus(field):
    for more in (b"\0", b"\5", b"\xff", b"\5\2\0", bytes(2), bytes(509), field, field[3:], bytes(65536)):
        yield field + more


def twice(rng, table, number):
    """Two faults at once or three: entries that break the rule, an altered opening, a cut, bytes behind."""
    for _ in range(number):
        bad = list(table)
        for i in rng.integers(ENTRIES, size=int(rng.integers(1, 4))):
            bad[i] = int(rng.choice([0, bad[i - 1], LARGEST + 1, 65535, int(rng.integers(65536))]))
        field, way = bytearray(encode(bad)), rng.integers(5)
        if way in (0, 1):
            field[rng.integers(len(OPENING))] = rng.integers(256)
        if way in (1, 2):
            field = field[:rng.integers(len(field))]
        elif way == 3:
            field += bytes(rng.integers(256, size=int(rng.integers(1, 4))).astype("uint8"))
        yield bytes(field)


def typed(rng, number):
    """Bytes of any values and of any length, some behind a right opening."""
    for _ in range(number):
        content = rng.integers(256, size=int(rng.choice([512, 512, 511, 513, rng.integers(1100)]))).astype("uint8").tobytes()
        yield (OPENING if rng.random() < 0.7 else b"") + content
