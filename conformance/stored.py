"""The stored output of the gate's program crates/test_blocks, made by SciPy.

    /usr/bin/python3 conformance/stored.py           writes crates/test_blocks/stdout
    /usr/bin/python3 conformance/stored.py --check   only compares: ends with 1 if it differs

The blocks are those of document 01 that are not marked M, and the worked example of `plunges`. Lists are SciPy's (peers.py), files are
written and read by files.py. Nothing that the library answered is read: the layout of the text is all that this shares with the program.
"""
import os
import sys

import numpy as np

import files
import peers

STORED = os.path.join(os.path.dirname(os.path.abspath(__file__)), "..", "crates", "test_blocks", "stdout")
# Sizes that the program chose: of its long output, of its output where sides are refused, and of the longest file that it prints as text.
LONG, CELLS, AS_TEXT = 204000, 57840, 16384
# Document 01's worked example: what comes in, what is printed, the file.
INPUT = bytes.fromhex("08 03 03 04 04 04 04 09 04 04 04 04")
TEXT = ["plate 8 3 3", "0 1 1 9", "1 1 1 4", "total 2"]
FILE = bytes.fromhex("01 00 03 08 03 03 02 00 04 01 01 00 09 02 00 04 01 01 01 04 03 00 04 00 00 00 02")


# ---- reliefs of 240 by 240 cells

def all_one():
    return np.ones((240, 240), np.uint8)


def six_tiles():
    return np.kron(np.array([[1, 46, 91], [76, 121, 1]], np.uint8), np.ones((120, 80), np.uint8))


def dome():
    """The distance of each cell to the nearest cell off the plate."""
    return np.array([[min(column + 1, 240 - column, row + 1, 240 - row) for column in range(240)] for row in range(240)], np.uint8)


# ---- answers

def listed(relief, kind):
    """The plunges of a relief, and the rungs climbed for them; that they draw it is seen by the way."""
    climb = peers.rungs(relief, kind, by_balls=False)
    plunges = peers.listing(climb, peers.residues(climb, kind))
    height, width = relief.shape
    assert (peers.drawn(kind, width, height, plunges, by_balls=False) == relief).all()
    return plunges, len(climb) - 1


# ---- the text

def of_bytes(data):
    """A few bytes whole, of more their sum and a sum with weights."""
    if len(data) <= 64:
        return data.hex(" ")
    numbers = np.frombuffer(data, np.uint8).astype(int)
    return f"sums {numbers.sum()} {(numbers * (np.arange(len(numbers)) % 251 + 1)).sum()}"


def of_list(plunges):
    """As `plunges` prints a list, after the plate."""
    return [f"{reach} {row} {column} {depth}" for column, row, reach, depth in plunges] + [f"total {len(plunges)}"]


def of_block(name, kind, relief):
    height, width = relief.shape
    plunges, rungs = listed(relief, kind)
    file = files.encode(kind, width, height, plunges)
    extent = f"listed {len(file)} {len(plunges)} {rungs}"
    assert len(file) == 13 + 7 * len(plunges) < LONG and files.read(file).number == 0
    return [
        f"block: {name}",
        f"list into {LONG} bytes: {extent}", "rest kept",
        f"plate {kind} {width} {height}", *(of_list(plunges) if len(file) <= AS_TEXT else []), of_bytes(file),
        f"list into {13 + 7 * len(plunges)} bytes: {extent}", "rest kept", "same bytes",
        f"list into {12 + 7 * len(plunges)} bytes: refused 5 {len(file)}", "rest kept",
        f"tidy: {extent}", "rest kept", "same bytes",
        "check: tidy"]


def of_sides(kind, width, height):
    """Sides that are not 1 to 240: 2, and the output and both work buffers as before."""
    assert files.read(files.encode(kind, width, height, []))[:2] == (2, 0)
    return ["block: sides", f"plate {kind} {width} {height}", f"list into {CELLS} bytes: refused 2 0"] + ["rest kept"] * 3


def worked():
    kind, width, height, *depths = INPUT
    relief = np.array(depths, np.uint8).reshape(height, width)
    plunges, _ = listed(relief, kind)
    assert [f"plate {kind} {width} {height}"] + of_list(plunges) == TEXT and files.encode(kind, width, height, plunges) == FILE
    return of_block("worked example", kind, relief)


def whole():
    lines = worked()
    for kind in (4, 8):
        for name, relief in (("all depth 1", all_one()), ("six tiles", six_tiles()), ("dome", dome())):
            lines += of_block(name, kind, relief)
    for kind in (4, 8):
        for width, height in ((241, 240), (240, 241), (0, 240), (240, 0)):
            lines += of_sides(kind, width, height)
    return "".join(line + "\n" for line in lines).encode()


def main():
    made = whole()
    if sys.argv[1:] != ["--check"]:
        with open(STORED, "wb") as out:
            out.write(made)
    elif not os.path.exists(STORED) or open(STORED, "rb").read() != made:
        sys.exit("crates/test_blocks/stdout is not what SciPy gives")
    print(f"crates/test_blocks/stdout: {len(made.splitlines())} lines by SciPy")


if __name__ == "__main__":
    main()
