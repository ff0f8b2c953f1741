"""Comparisons of the calls about job files: listing, reading, drawing, tidying, the tidy check, motions and sink tables; and their refusals."""
import functools

import numpy as np

import files
import motions
import peers
import tables
from guard import Blank, Free, Lent, Replaceable
from library import Scale
from maps import BAD, Plate, longer


# ---- what the peers say about a file

class Told:
    """A readable file: the relief it draws, its tidied bytes and the rungs climbed for them, by SciPy."""

    def __init__(self, reading):
        self.kind, self.width, self.height, self.plunges = reading[2:]
        self.cells = self.width * self.height
        small = self.cells <= 400
        self.relief = peers.drawn(self.kind, self.width, self.height, self.plunges, small)
        self.tidied, self.rungs = tidied(self.kind, self.width, self.height, self.relief.tobytes())


@functools.lru_cache(maxsize=4096)
def tidied(kind, width, height, relief):
    plate = Plate(np.frombuffer(relief, np.uint8).reshape(height, width), kind)
    climb = peers.rungs(plate.relief, kind, plate.by_balls)
    return files.encode(kind, width, height, peers.listing(climb, peers.residues(climb, kind))), len(climb) - 1


def listed(file, rungs):
    """The answer of a listing: the file's length, its plunges, and the rungs climbed."""
    return 0, 0, len(file), (len(file) - 13) // 7, rungs


def first_unlike(file, other):
    return next(i for i, (a, b) in enumerate(zip(file, other)) if a != b)


# ---- listing

def compare_listing(judge, rng, plate, climb, remains):
    """The listing of a scan, with output exact, longer and too short; drawn, tidied and checked again. Gives back its bytes."""
    file = files.encode(plate.kind, plate.width, plate.height, peers.listing(climb, remains))
    free, works = [Free(plate.cells)] * 2, [plate.blank(rng), plate.blank(rng)]
    done = listed(file, len(climb) - 1)
    got = judge.call("listing, SciPy", "haru_list", plate.given(rng) + [Blank(len(file)), *works], done, [file, *free])
    judge.same("listing, OpenCV", got, [peers.cv_listing(plate.relief, plate.kind, "plate").tobytes(), *free])
    judge.call("listing, longer output", "haru_list", plate.given(rng) + [Blank(len(file) + 1 + longer(rng)), *works], done, [file, *free])
    for short in {len(file) - 1, int(rng.integers(len(file)))}:
        judge.call("listing, short output", "haru_list", plate.given(rng) + [Blank(short), *works], (5, len(file), 0, 0, 0), [b"", *free])
    return file


def listing_arguments(rng, many):
    """Kinds and sides: each of the bad ones alone, then any, two and more of them bad at once."""
    yield from ((kind, 3, 3) for kind in BAD["kind"])
    yield from ((8, width, 3) for width in BAD["width"])
    yield from ((4, 3, height) for height in BAD["height"])
    kinds, sides = (4, 8, 8, 4, 0, 6, 255, 260), (1, 2, 3, 3, 240, 0, 241, 256, 257, 65535, 65539)
    for _ in range(many):
        yield int(rng.choice(kinds)), int(rng.choice(sides)), int(rng.choice(sides))


def compare_listing_arguments(judge, rng, many):
    """Faults in the arguments of the listing; 5 comes last."""
    for kind, width, height in listing_arguments(rng, many):
        cells = width * height if 0 <= width <= 240 and 0 <= height <= 240 else 9
        lengths = [max(0, cells + int(rng.choice([0, 0, 0, -1, 1, -cells]))) for _ in range(3)]
        relief = rng.integers(0, 3, lengths[0]).astype(np.uint8).tobytes()
        file, rungs = b"", 0
        if kind not in (4, 8):
            number = 1
        elif not (1 <= width <= 240 and 1 <= height <= 240):
            number = 2
        elif min(lengths) < cells:
            number = 4
        else:
            file, rungs = tidied(kind, width, height, relief[:cells])
            number = 0
        out = max(0, len(file) + int(rng.choice([0, 0, 1, -1, -13, 30])))
        if number == 0 and out < len(file):
            number = 5
        answer = listed(file, rungs) if number == 0 else (number, len(file) if number == 5 else 0, 0, 0, 0)
        works = Free(cells) if number in (0, 5) else b""
        judge.tell(("arguments", (kind, width, height, lengths, out)))
        judge.call("listing, faults in the arguments", "haru_list",
                   [relief, kind, width, height, Blank(out), Blank(lengths[1]), Blank(lengths[2])], answer,
                   [file if number == 0 else b"", works, works])


# ---- files, readable or not

def compare_file(judge, rng, file, told=None):
    """What every call says about one file: read, draw, tidy, check, motions."""
    judge.tell(("file", file))
    reading = files.read(file)
    if reading.number:
        judge.call("reading, refused", "haru_read", [file], (reading.number, 0, 0, 0, reading.place, 0))
        compare_refused(judge, rng, file, reading)
    else:
        judge.call("reading, accepted", "haru_read", [file], (0, *reading[2:5], 0, len(reading.plunges)))
        compare_readable(judge, rng, file, told or Told(reading))


def compare_refused(judge, rng, file, reading):
    """A file's faults come before short buffers and all else; nothing is written."""
    def blank():
        return Blank(rng.choice([0, 1, 8, 9, 64]))
    refused = (reading.number, 0, reading.place)
    judge.call("drawing, file refused", "haru_draw", [file, blank()], refused, [b""])
    judge.call("tidying, file refused", "haru_tidy", [file, blank(), blank(), blank(), blank()], (reading.number, reading.place, 0, 0, 0), [b""] * 4)
    judge.call("tidy check, file refused", "haru_check", [file, blank(), blank(), blank()], refused, [b""] * 3)
    scale = motions.some_scale(rng)
    judge.call("motions, file refused", "haru_motions", [file, int(rng.integers(3)), Scale(*scale)],
               (reading.number, 0, reading.place) + (motions.NONE,) * 4)


def compare_readable(judge, rng, file, told):
    cells, free = told.cells, [Free(told.cells)] * 3
    relief, tidy = told.relief.tobytes(), told.tidied

    def work():
        return Blank(cells + longer(rng))

    judge.call("drawing, SciPy", "haru_draw", [file, work()], (0, 0, 0), [relief])
    done = listed(tidy, told.rungs)
    judge.call("tidying, SciPy", "haru_tidy", [file, Blank(len(tidy) + longer(rng)), work(), work(), work()], done, [tidy, *free])
    answer = (0, 0, 0) if file == tidy else (12, 0, first_unlike(file, tidy))
    judge.call("tidy check, tidy" if file == tidy else "tidy check, not tidy", "haru_check", [file, work(), work(), work()], answer, free)
    if rng.random() < 0.3:
        compare_short(judge, rng, file, told)
    i = int(rng.integers(len(told.plunges) + 1))
    compare_motions(judge, file, told.plunges, i, motions.some_scale(rng))


def compare_short(judge, rng, file, told):
    """Buffers too short, one and two of them: 4 before 12 and 5."""
    cells, needed = told.cells, len(told.tidied)

    def short(at):
        """Lengths of three work buffers of which number `at` is too short."""
        return [Blank(int(rng.integers(cells)) if n == at else cells) for n in range(3)]

    judge.call("drawing, short output", "haru_draw", [file, Blank(int(rng.integers(cells)))], (4, 0, 0), [b""])
    judge.call("drawing, short output", "haru_draw", [file, Blank(cells - 1)], (4, 0, 0), [b""])
    works = [Blank(cells + longer(rng)) for _ in range(3)]
    for length in {needed - 1, int(rng.integers(needed))}:
        judge.call("tidying, short output", "haru_tidy", [file, Blank(length), *works], (5, needed, 0, 0, 0), [b""] + [Free(cells)] * 3)
    for at in range(3):
        for length in (needed, int(rng.integers(needed))):
            judge.call("tidying, short work buffer", "haru_tidy", [file, Blank(length), *short(at)], (4, 0, 0, 0, 0), [b""] * 4)
        judge.call("tidy check, short work buffer", "haru_check", [file, *short(at)], (4, 0, 0), [b""] * 3)


def variations(rng, plate, file):
    """A tidy file out of order, with repeats, with plunges inside others, with one missing, and with one less deep."""
    plunges = list(files.read(file).plunges)

    def made(changed):
        return files.encode(plate.kind, plate.width, plate.height, changed)

    yield file
    if plunges:
        some = plunges[int(rng.integers(len(plunges)))]
        nested = [(c, r, int(rng.integers(reach + 1)), int(rng.integers(1, depth + 1))) for c, r, reach, depth in plunges if rng.random() < 0.3]
        yield made([plunges[i] for i in rng.permutation(len(plunges))])
        yield made(plunges + [some])
        yield made([some] + plunges)
        yield made(nested + plunges)
        yield made([p for p in plunges if p != some])
        yield made([(*p[:3], max(1, p[3] - 1)) if p == some else p for p in plunges])
        if len(plunges) > 1:
            at = int(rng.integers(len(plunges) - 1))
            yield made(plunges[:at] + [plunges[at + 1], plunges[at]] + plunges[at + 2:])


# ---- motions

def compare_motions(judge, file, plunges, i, scale):
    wanted = motions.motions(plunges, i, *scale)
    label = {0: "motions, exact", 13: "motions, scale refused", 14: "motions, number refused"}[wanted[0]]
    judge.call(label, "haru_motions", [file, i, Scale(*scale)], wanted)
    if wanted[0] == 0:
        travel = scale[1], plunges[i][0], scale[0]
        judge.add("travels where a fused product and sum would differ", motions.fused_travel(*travel) != motions.travel(*travel))


def of_every_depth(rng):
    """Plunges on the largest plate: every depth at reach 0, 1 and another."""
    def inside(reach):
        return int(rng.integers(reach, 240 - reach))

    return [(inside(reach), inside(reach), reach, depth) for depth in range(1, 256) for reach in (0, 1, int(rng.integers(2, 120)))]


def compare_scales(judge, rng, many):
    """Every end of every range against every other, and random scales, over plunges of every depth and of all reaches."""
    wide = [(c, 120, reach, 1) for reach in range(120) for c in {reach, 239 - reach}]
    plunges = of_every_depth(rng) + wide
    file = files.encode(int(rng.choice([4, 8])), 240, 240, plunges)
    total = len(plunges)
    judge.tell(("file", file))
    for i in range(total):
        compare_motions(judge, file, plunges, i, (0.1, 0.7, 999.9))
    for pitch in motions.PITCHES:
        for offset in motions.OFFSETS:
            for scale in ((pitch, offset, 0.0), (pitch, 0.0, offset)):
                i = [0, total - 1, total, int(rng.integers(total))][int(rng.integers(4))]
                compare_motions(judge, file, plunges, i, scale)
    for i in (total, total + 1, 1 << 31, 1 << 32, (1 << 32) + 1, (1 << 64) - 1):
        compare_motions(judge, file, plunges, i, (1.0, 0.0, 0.0))
        compare_motions(judge, file, plunges, i, (0.0, 0.0, 0.0))
    for _ in range(many):
        compare_motions(judge, file, plunges, int(rng.integers(total)), motions.some_scale(rng))


# ---- sink tables

def compare_load(judge, field, force):
    """A load in place of the numbers in force, which a refusal keeps."""
    judge.tell(("field", field))
    reading = tables.read(field)
    label = "table loads, refused" if reading.number else "table loads, accepted"
    after = force if reading.number else tables.lent(reading.table)
    judge.call(label, "haru_load_table", [field, Replaceable(force)], (reading.number, 0, reading.place), [after])


def compare_write(judge, table, room):
    """A table of any numbers into an output."""
    judge.tell(("table", table))
    number, place, field = tables.write(table, room)
    label = {0: "table writes, accepted", 5: "table writes, short output", 15: "table writes, rule broken"}[number]
    judge.call(label, "haru_write_table", [Lent(tables.lent(table)), Blank(room)], (number, 0, place), [field])


def compare_there_and_back(judge, table, force):
    """A legal table is written, what came out is loaded, and what was loaded written again."""
    judge.tell(("table", table))
    field, memory, done = tables.encode(table), tables.lent(table), (0, 0, 0)
    written = judge.call("table writes, to be loaded", "haru_write_table", [Lent(memory), Blank(len(field))], done, [field])
    loaded = judge.call("table loads, of what was written", "haru_load_table", [written.blanks[0], Replaceable(force)], done, [memory])
    judge.call("table writes, of what was loaded", "haru_write_table", [Lent(loaded.blanks[0]), Blank(len(field))], done, [field])


def compare_fields(judge, rng, table, fields):
    """Loads of fields, over numbers of all sorts: random ones, the built-in table, legal ones."""
    for field in fields:
        way = rng.integers(4)
        force = rng.bytes(2 * tables.ENTRIES) if way else tables.lent(tables.BUILT_IN if rng.integers(2) else table)
        compare_load(judge, field, force)


def compare_tables(judge, rng, table):
    """One legal table: its field, loaded whole and damaged in every way; it and tables like it, written into outputs of all sorts."""
    field = tables.encode(table)
    judge.call("the built-in table", "haru_built_in_table", [Replaceable(rng.bytes(2 * tables.ENTRIES))], (), [tables.lent(tables.BUILT_IN)])
    compare_there_and_back(judge, table, rng.bytes(2 * tables.ENTRIES))
    damages = [[field], tables.cuts(field), tables.openings(field), tables.surplus(field), tables.twice(rng, table, 300), tables.typed(rng, 100),
               map(tables.encode, tables.entry_ends(table)), (tables.encode(tables.some_numbers(rng)) for _ in range(50))]
    for fields in damages:
        compare_fields(judge, rng, table, fields)
    lengths = [0, 1, 2, 3, 512, tables.LENGTH - 1, tables.LENGTH, tables.LENGTH + 1, 600, 1030]
    for room in lengths:
        for one in (table, tables.with_entry(table, 0, 1), tables.with_entry(table, 255, tables.LARGEST + 1), tables.some_numbers(rng)):
            compare_write(judge, one, room)
    for one in tables.entry_ends(table):
        compare_write(judge, one, int(rng.choice(lengths)))


def compare_table_motions(judge, label, table, file, i, scale):
    """Motions by any 256 numbers. A file's refusals are as for the built-in table."""
    reading = files.read(file)
    refused = (reading.number, 0, reading.place) + (motions.NONE,) * 4
    wanted = refused if reading.number else motions.motions(reading.plunges, i, *scale, table)
    judge.tell(("table", table), ("file", file))
    judge.call(label, "haru_table_motions", [Lent(tables.lent(table)), file, i, Scale(*scale)], wanted)


def compare_tables_of_motions(judge, rng, many):
    """Plunges of every depth, by the built-in table as without one, by legal tables, and by numbers that are none."""
    plunges, scale = of_every_depth(rng), (0.1, 0.7, 999.9)
    file, total = files.encode(int(rng.choice([4, 8])), 240, 240, plunges), len(plunges)
    for i in range(total):
        compare_motions(judge, file, plunges, i, scale)
        compare_table_motions(judge, "table motions, built-in table", tables.BUILT_IN, file, i, scale)
        compare_table_motions(judge, "table motions, legal tables", tables.some_table(rng), file, i, scale)
        for numbers in (tables.some_numbers(rng), [0] * tables.ENTRIES, [65535] * tables.ENTRIES):
            compare_table_motions(judge, "table motions, any numbers", numbers, file, i, scale)
    for _ in range(many):
        table = tables.some_table(rng) if rng.integers(2) else tables.some_numbers(rng)
        i = int(rng.integers(total + 1)) if rng.integers(8) else int(rng.choice([total, total + 1, 1 << 31, 1 << 32]))
        compare_table_motions(judge, "table motions, random scales", table, file, i, motions.some_scale(rng))
    small = files.encode(8, 3, 3, [(1, 1, 0, 9), (1, 1, 1, 4)])
    for bad in [*files.cuts(small), *files.ends(small), *files.twice(rng, small, 100)]:
        compare_table_motions(judge, "table motions, damaged files", tables.some_numbers(rng), bad, int(rng.integers(3)), motions.some_scale(rng))
