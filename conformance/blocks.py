"""Document 01's blocks to try, its examples of refusals, and the settled readings of files: answers written out by hand."""
import numpy as np

import files
import peers
from guard import Blank, Free
from jobs import compare_motions
from library import Scale
from motions import NONE

# kind, width, height, depths, plunges, rungs climbed
LISTS = [
    (4, 1, 1, [7], [(0, 0, 0, 7)], 1),
    (8, 1, 1, [7], [(0, 0, 0, 7)], 1),
    (8, 3, 3, [5] * 9, [(1, 1, 1, 5)], 2),
    (4, 3, 3, [5] * 9, [(0, 0, 0, 5), (2, 0, 0, 5), (0, 2, 0, 5), (2, 2, 0, 5), (1, 1, 1, 5)], 2),
    (8, 3, 3, [4] * 4 + [9] + [4] * 4, [(1, 1, 0, 9), (1, 1, 1, 4)], 2),
    (8, 2, 2, [3] * 4, [(0, 0, 0, 3), (1, 0, 0, 3), (0, 1, 0, 3), (1, 1, 0, 3)], 1),
    (8, 4, 4, [1] * 16, [(1, 1, 1, 1), (2, 1, 1, 1), (1, 2, 1, 1), (2, 2, 1, 1)], 2),
    (4, 3, 1, [2, 0, 2], [(0, 0, 0, 2), (2, 0, 0, 2)], 1),
    (8, 3, 1, [2, 0, 2], [(0, 0, 0, 2), (2, 0, 0, 2)], 1),
    (4, 3, 3, [0] * 9, [], 0),
    (8, 3, 3, [0] * 9, [], 0),
    (8, 240, 240, [1] * 57600, [(c, r, 119, 1) for r in (119, 120) for c in (119, 120)], 120),
]
# call, kind, width, height, depths, further argument, map
MAPS = [
    ("haru_clearance_map", 8, 3, 3, [5] * 9, [1], [1, 1, 1, 1, 2, 1, 1, 1, 1]),
    ("haru_axis_map", 8, 3, 3, [5] * 9, [1], [0, 0, 0, 0, 2, 0, 0, 0, 0]),
    ("haru_axis_map", 8, 4, 4, [1] * 16, [1], [0, 0, 0, 0, 0, 2, 2, 0, 0, 2, 2, 0, 0, 0, 0, 0]),
    ("haru_axis_map", 4, 3, 3, [5] * 9, [1], [1, 0, 1, 0, 2, 0, 1, 0, 1]),
    ("haru_largest_residue_map", 8, 3, 3, [4] * 4 + [9] + [4] * 4, [], [0] * 4 + [5] + [0] * 4),
    ("haru_residue_sum_map", 8, 3, 3, [4] * 4 + [9] + [4] * 4, [], [0] * 4 + [9] + [0] * 4),
]
HEAD = "01 00 03 08 03 03"
WORKED = HEAD + "02 00 04 01 01 00 09 02 00 04 01 01 01 04 03 00 04 00 00 00 02"
# file, number, place
REFUSED = [
    ("", 6, 0), ("02 00 00", 7, 0), ("01 00", 6, 0), ("07", 6, 0), (HEAD, 6, 6), (HEAD + "02", 6, 6), (HEAD + "02 00 04 01", 6, 6),
    (HEAD + "02 00 05 01", 7, 6), ("01 00 03 06 00 00", 1, 0), ("01 00 03 08 f1 03", 2, 0), ("01 00 03 08 03 00", 2, 0),
    (HEAD + HEAD, 7, 6), (HEAD + "02 00 04 00 01 01 05", 8, 6), (HEAD + "02 00 04 01 01 00 00", 9, 6), (HEAD + "02 00 04 00 00 01 00", 8, 6),
    (HEAD + "02 00 04 01 01 00 05 03 00 04 00 00 00 02", 10, 13), (HEAD + "03 00 04 00 00 00 01 00", 10, 6),
    (HEAD + "03 00 04 00 00 00 00 00", 11, 13), (HEAD + "03 00 04 00 00 00 00 02 00 00", 11, 13), (HEAD + "03 00 03 00 00 00", 7, 6),
    (HEAD + "02 00 04 01 01 78 05", 8, 6), (HEAD + "02 00 04 01 01 ff 00", 8, 6), (WORKED + "00", 11, 27),
]


def compare_maps(judge):
    for name, kind, width, height, depths, further, wanted in MAPS:
        cells = width * height
        works = 2 if "residue" in name else 0
        judge.call("blocks of document 01: maps", name, [bytes(depths), kind, width, height, *further] + [Blank(cells)] * (1 + works), (0, 0, 0),
                   [bytes(wanted)] + [Free(cells)] * works)
    judge.call("examples of refusals", "haru_clearance_map", [bytes(9), 6, 3, 3, 1, Blank(9)], (1, 0, 0), [b""])
    judge.call("examples of refusals", "haru_clearance_map", [bytes(723), 8, 241, 3, 1, Blank(723)], (2, 0, 0), [b""])
    judge.call("examples of refusals", "haru_clearance_map", [bytes(9), 8, 3, 3, 0, Blank(9)], (3, 0, 0), [b""])
    judge.call("examples of refusals", "haru_clearance_map", [bytes(8), 8, 3, 3, 1, Blank(9)], (4, 0, 0), [b""])


def compare_jobs(judge):
    for kind, width, height, depths, plunges, rungs in LISTS:
        file, cells = files.encode(kind, width, height, plunges), width * height
        works, free = [Blank(cells)] * 2, [Free(cells)] * 2
        given = [bytes(depths), kind, width, height]
        long = len(file)
        judge.call("blocks of document 01: lists", "haru_list", given + [Blank(long), *works], (0, 0, long, len(plunges), rungs), [file, *free])
        judge.call("blocks of document 01: lists, one byte less", "haru_list", given + [Blank(long - 1), *works], (5, long, 0, 0, 0), [b"", *free])
        judge.call("blocks of document 01: drawn", "haru_draw", [file, Blank(cells)], (0, 0, 0), [bytes(depths)])
        judge.call("blocks of document 01: tidy check", "haru_check", [file, *works, Blank(cells)], (0, 0, 0), [*free, Free(cells)])
    for width, height in ((241, 240), (240, 241), (0, 240), (240, 0)):
        judge.call("examples of refusals", "haru_list", [bytes(241 * 240), 8, width, height, Blank(99), Blank(241 * 240), Blank(241 * 240)],
                   (2, 0, 0, 0, 0), [b""] * 3)

    works, free = [Blank(9)] * 3, [Free(9)] * 3
    nested, tidy = files.encode(8, 3, 3, [(1, 1, 0, 4), (1, 1, 1, 4)]), files.encode(8, 3, 3, [(1, 1, 1, 4)])
    judge.call("blocks of document 01: tidied", "haru_tidy", [nested, Blank(len(tidy)), *works], (0, 0, len(tidy), 1, 2), [tidy, *free])
    judge.call("examples of refusals", "haru_check", [nested, *works], (12, 0, 11), free)
    repeated = files.encode(8, 3, 3, [(1, 1, 1, 4), (1, 1, 1, 4)])
    judge.call("examples of refusals", "haru_check", [repeated, *works], (12, 0, 13), free)
    none = files.encode(8, 3, 3, [])
    judge.call("examples of refusals", "haru_tidy", [none, Blank(12), *works], (5, 13, 0, 0, 0), [b"", *free])
    judge.call("examples of refusals", "haru_draw", [none, Blank(8)], (4, 0, 0), [b""])
    judge.call("examples of refusals", "haru_motions", [none, 0, Scale(0.0, 0.0, 0.0)], (13, 0, 0) + (NONE,) * 4)
    judge.call("examples of refusals", "haru_motions", [none, 0, Scale(1.0, 0.0, 0.0)], (14, 0, 0) + (NONE,) * 4)

    worked = bytes.fromhex(WORKED)
    judge.call("the worked file", "haru_read", [worked], (0, 8, 3, 3, 0, 2))
    judge.call("the worked file", "haru_check", [worked, *works], (0, 0, 0), free)
    compare_motions(judge, worked, files.read(worked).plunges, 0, (0.5, 10.0, 20.0))
    for text, number, place in REFUSED:
        file = bytes.fromhex(text)
        judge.tell(("file", file))
        assert files.read(file)[:2] == (number, place)
        judge.call("files refused, by hand", "haru_read", [file], (number, 0, 0, 0, place, 0))
        judge.call("files refused, by hand", "haru_draw", [file, Blank(9)], (number, 0, place), [b""])


def compare_peers():
    """The peers themselves against the blocks: a peer used wrongly would be seen here."""
    for kind, width, height, depths, plunges, rungs in LISTS:
        relief = np.array(depths, np.uint8).reshape(height, width)
        wanted = files.encode(kind, width, height, plunges)
        for by_balls in (True, False) if relief.size <= 400 else (False,):
            climb = peers.rungs(relief, kind, by_balls)
            assert len(climb) - 1 == rungs
            assert files.encode(kind, width, height, peers.listing(climb, peers.residues(climb, kind))) == wanted
            assert (peers.drawn(kind, width, height, plunges, by_balls) == relief).all()
        for region in ("plate", "ring", "box"):
            assert peers.cv_listing(relief, kind, region).tobytes() == wanted
        for region in ("plate", "ring"):
            assert (peers.cv_drawing(np.frombuffer(wanted, np.uint8), kind, width, height, region) == relief).all()
