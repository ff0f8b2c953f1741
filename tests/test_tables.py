#!/usr/bin/env python3
"""Makes crates/test_tables/stdin and the expected crates/test_tables/stdout: sink tables loaded, written and used, by document 02's N6; and
examples/built-in.table, the built-in table as a field.

    python3 tests/test_tables.py           writes the files
    python3 tests/test_tables.py --check   only compares: ends with 1 if a file differs

Fields are read and written by the request's words alone; motions are the fractions of tests/test_motions.py. Its author had read the library's
source, so it is another computation and not another team's implementation.
"""
import os
import random
import sys
from typing import NamedTuple

import test_motions
from plunge_files import EXAMPLE, Refused, field, file_of
from records import CONSTANT, CRATES, NOISE, patterned, refused, shown, stored
from test_motions import BUILT_IN, bits

LOAD, WRITE, MOTIONS, PRESS = range(1, 5)
STEPS = 0      # a pattern of its own: entry i is i times the seed
FIELD = 515
ROOM = 1280
LARGEST = 50000
EXAMPLE_TABLE = os.path.join(CRATES, "..", "examples", "built-in.table")


# ---- fields

def entries_in(data):
    """The numbers of a content; bytes that are missing count as 0."""
    content = (data[3:] + bytes(512))[:512]
    return [content[2 * i] * 256 + content[2 * i + 1] for i in range(256)]


def breaks_rule(table, i):
    return table[i] != 0 if i == 0 else table[i] <= table[i - 1] or table[i] > LARGEST


def rule_held(table):
    for i in range(256):
        if breaks_rule(table, i):
            raise Refused(15, 3 + 2 * i)


def loaded(data):
    """The table of a field."""
    if len(data) < 3:
        raise Refused(6, 0)
    if data[0] != 5 or data[1] * 256 + data[2] != 512:
        raise Refused(7, 0)
    if len(data) < FIELD:
        raise Refused(6, 0)
    if len(data) > FIELD:
        raise Refused(11, FIELD)
    rule_held(entries_in(data))
    return entries_in(data)


def written(table, room):
    """The field of a table, for an output of so many bytes."""
    rule_held(table)
    if room < FIELD:
        raise Refused(5, FIELD)
    return field(5, *(byte for entry in table for byte in entry.to_bytes(2, "big")))


def stepped(step):
    return [step * i for i in range(256)]


def rising(step, length):
    """The field of such a table, cut or with zeros behind it."""
    content = b"".join(entry.to_bytes(2, "big") for entry in stepped(step))
    return (field(5, *content) + bytes(ROOM))[:length]


# ---- records

class Record(NamedTuple):
    call: int
    seed: int
    pattern: int = STEPS
    length: int = FIELD
    output: int = 0
    before: int = 0       # the step of a table that is loaded first; 0: none is
    half: int = 1
    plunge: int = 0
    patches: tuple = ()   # pairs of a place and a byte
    file: bytes = b""

    def field(self):
        data = bytearray(rising(self.seed, self.length) if self.pattern == STEPS else patterned(self.pattern, self.seed, 1, 1, self.length, b""))
        for at, byte in self.patches:
            if at < len(data):
                data[at] = byte
        return bytes(data)


RECORDS = []


def add(call, seed, **more):
    RECORDS.append(Record(call, seed, **more))


def entry(i, value):
    """The patches that put an entry."""
    return (3 + 2 * i, value // 256), (4 + 2 * i, value % 256)


def packed(record):
    numbers = bytes([record.call, record.pattern, record.seed]) + record.length.to_bytes(2, "big") + record.output.to_bytes(2, "big")
    counts = bytes([record.before, record.half, record.plunge, len(record.patches), len(record.file)])
    return numbers + counts + b"".join(at.to_bytes(2, "big") + bytes([byte]) for at, byte in record.patches) + record.file


# ---- what is printed

def load(data, table, done):
    """The table in force after a load, and what is printed of it."""
    try:
        return loaded(data), done
    except Refused as r:
        return table, refused(*r.args)


def in_force(record):
    table, text = BUILT_IN, ""
    if record.before:
        table, text = load(rising(record.before, FIELD), table, "before: loaded\n")
    table, more = load(record.field(), table, "loaded\n")
    return table, text + more


def moved(record, table):
    return test_motions.printed((record.file, record.plunge, (bits(record.half), bits(0), bits(0))), table)


def printed(record):
    if record.call == LOAD:
        table, text = in_force(record)
        return text + shown(written(table, FIELD))
    if record.call == PRESS:
        table, text = in_force(record)
        return text + moved(record, table)
    if record.call == MOTIONS:
        return moved(record, entries_in(record.field()))
    try:
        return "written\n" + shown(written(entries_in(record.field()), record.output)) + "rest kept\n"
    except Refused as r:
        return refused(*r.args) + "rest kept\n"


# ---- what is tried

def steps():
    """Every step: from 1 to 196 all entries are legal, 0 repeats, and of 197 and more a late entry is too large."""
    for step in range(256):
        add(LOAD, step)


def lengths():
    """Every cut, and surplus bytes: zeros, one that is not, a second field."""
    for length in [*range(FIELD), *range(FIELD + 1, FIELD + 10), 767, 768, 1023, 1024, 1027, 1030, ROOM]:
        add(LOAD, 20, length=length)
    add(LOAD, 20, length=516, patches=((515, 255),))
    add(LOAD, 20, length=1030, patches=((515, 5), (516, 2)))


def openings():
    """Every tag, and every byte of the length; 7 before 6 for want of content and before 11, but not before three bytes are there."""
    for at, right in enumerate(field(5, size=512)):
        for byte in range(256):
            if byte != right:
                add(LOAD, 100, patches=((at, byte),))
    for at, byte in ((0, 4), (0, 2), (1, 0), (1, 3), (2, 1), (2, 255)):
        for length in (1, 2, 3, 4, 258, 514, 516, 1030):
            add(LOAD, 100, length=length, patches=((at, byte),))


def rule_ends():
    """Entries at the ends of what the rule allows, by tables that leave room and by ones that leave none."""
    for step in (1, 2, 195, 196):
        for i in (0, 1, 2, 3, 63, 127, 128, 129, 200, 253, 254, 255):
            before, after = step * (i - 1), step * (i + 1)
            for value in sorted({0, 1, before - 1, before, before + 1, after - 1, after, after + 1, LARGEST - 1, LARGEST, LARGEST + 1, 65535}):
                if 0 <= value <= 65535 and value != step * i:
                    add(LOAD, step, patches=entry(i, value))


def blamed_entries():
    """The first of several entries is blamed; a fall is blamed where it ends."""
    for values in ((0, 9, 4), (0, 60000, 5), (1, 1, 1), (50001, 0), (1, 60000), (0, 0, 60000), (0, 50000, 50001), (0, 50000, 50000), (0, 256, 255), (256, 1)):
        add(LOAD, 7, patches=sum((entry(i, value) for i, value in enumerate(values)), ()))
    for i in (2, 50, 254):
        for j in (1, 49, 253, 255):
            add(LOAD, 7, patches=entry(i, 60000) + entry(j, 0))
            add(LOAD, 7, patches=entry(i, 0) + entry(j, LARGEST + 1))
    # a legal table whose first entries are the least, and whose last are the largest
    add(LOAD, 1, patches=sum((entry(i, LARGEST - 255 + i) for i in range(200, 256)), ()))


def orders():
    """The rule is tried last: after the tag, a missing byte and a surplus one."""
    wrong = entry(3, 50001)
    for length in (2, 3, 11, 514, 515, 516, 1030):
        add(LOAD, 20, length=length, patches=wrong)
        add(LOAD, 20, length=length, patches=wrong + ((0, 6),))
        add(LOAD, 0, length=length)
        add(LOAD, 255, length=length, patches=((2, 1),))


def random_bytes():
    """Noise for a field, with a right opening and without, whole and not; and one byte repeated."""
    right = ((0, 5), (1, 2), (2, 0))
    for seed in range(40):
        add(LOAD, seed, pattern=NOISE, patches=right)
        add(LOAD, seed, pattern=NOISE, patches=right + entry(0, 0))
        add(LOAD, seed, pattern=NOISE, length=(17 * seed) % 600)
    for seed in (0, 5, 255):
        add(LOAD, seed, pattern=CONSTANT, patches=right)
        add(LOAD, seed, pattern=CONSTANT)


def loads_after_loads():
    """A load replaces the table that another left, or keeps it."""
    for before in (1, 20, 196, 197, 255):
        add(LOAD, 30, before=before)
        add(LOAD, 30, before=before, length=514)
        add(LOAD, 30, before=before, length=516)
        add(LOAD, 30, before=before, patches=((0, 2),))
        add(LOAD, 30, before=before, patches=entry(255, 50001))
        add(LOAD, 0, before=before)


def writes():
    """Legal tables, into outputs of every class of length; others, of which 15 comes before 5; an output that is too short keeps its bytes."""
    for length in (0, 1, 2, 3, 256, 513, 514, 515, 516, 517, 600, 1030, ROOM):
        for step in (1, 20, 196, 0, 197):
            add(WRITE, step, output=length)
        add(WRITE, 20, output=length, patches=entry(100, 0))
        add(WRITE, 255, output=length, pattern=CONSTANT)
        add(WRITE, 9, output=length, pattern=NOISE)
    for i in (0, 1, 2, 128, 254, 255):
        for value in (0, 1, 2 * i, 2 * i + 1, 2 * i + 2, 2 * i + 3, LARGEST, LARGEST + 1, 65535):
            add(WRITE, 2, output=FIELD + i, patches=entry(i, value))
    # the opening of the bytes that a table is taken from is not its own
    add(WRITE, 20, output=FIELD, patches=((0, 9), (1, 9), (2, 9)))


def one_plunge(reach, depth):
    return file_of(8, 9, 9, [(4, 4, reach, depth)])


def forged_tables():
    """Motions by tables that no load accepts: the largest numbers, none, noise, falling ones; every depth, at reach 0 and others."""
    rnd = random.Random(11)
    for depth in range(1, 256):
        add(MOTIONS, rnd.randrange(256), pattern=NOISE, file=one_plunge(rnd.choice((0, 0, 0, 1, 2, 4)), depth))
    for reach in (0, 1, 4):
        for depth in (1, 2, 127, 128, 254, 255):
            add(MOTIONS, 255, pattern=CONSTANT, file=one_plunge(reach, depth))
            add(MOTIONS, 0, pattern=CONSTANT, file=one_plunge(reach, depth))
            add(MOTIONS, 0, file=one_plunge(reach, depth))
            add(MOTIONS, 255, file=one_plunge(reach, depth))
    # entries at which the tenth is rounded down, and the smallest sinks
    for value in (1, 2, 9, 10, 11, 19, 20, 99, 100, 101, 999, 1000, 49999, 50000, 65529, 65530, 65535):
        for reach in (0, 1):
            add(MOTIONS, 0, patches=entry(7, value), file=one_plunge(reach, 7))


def faults_of_files():
    """The file's refusals, 13 and 14 stand whatever the table is; changes of the electrode too."""
    tables = ({"seed": 255, "pattern": CONSTANT}, {"seed": 0}, {"seed": 3, "pattern": NOISE}, {"seed": 20})
    for table in tables:
        for file in (b"", EXAMPLE[:-1], EXAMPLE + b"\0", EXAMPLE[:6] + EXAMPLE[20:], file_of(6, 3, 3, []), file_of(8, 241, 3, [])):
            add(MOTIONS, **table, file=file)
        for half in (0, 1, 4, 5):
            for plunge in (0, 1, 2, 255):
                add(MOTIONS, **table, file=EXAMPLE, half=half, plunge=plunge)
    same = file_of(4, 9, 9, [(4, 4, 1, 3), (3, 3, 1, 200), (2, 2, 0, 200), (2, 3, 0, 3)])
    for plunge in range(5):
        add(MOTIONS, 8, pattern=NOISE, file=same, plunge=plunge)


def loads_and_motions():
    """Motions after a load: by the loaded table, or, where it was refused, by the one in force before, built in or loaded."""
    ways = ({}, {"length": 514}, {"length": 516}, {"patches": ((0, 4),)}, {"patches": entry(9, 50001)}, {"patches": entry(9, 0)})
    for depth in (1, 4, 9, 10, 200, 255):
        for reach in (0, 2):
            for before in (0, 33, 255):
                for way in ways:
                    add(PRESS, 7, before=before, file=one_plunge(reach, depth), **way)


def example():
    """Writes the example, or with --check compares it; whether it differs."""
    content = written(BUILT_IN, FIELD)
    if "--check" not in sys.argv[1:]:
        with open(EXAMPLE_TABLE, "wb") as out:
            out.write(content)
        return False
    with open(EXAMPLE_TABLE, "rb") as stands:
        differs = stands.read() != content
    if differs:
        print("examples/built-in.table differs")
    return differs


def main():
    parts = (steps, lengths, openings, rule_ends, blamed_entries, orders, random_bytes, loads_after_loads, writes, forged_tables, faults_of_files,
             loads_and_motions)
    differs = stored("test_tables", RECORDS, parts, packed, printed)
    sys.exit(int(example() or differs))


if __name__ == "__main__":
    main()
