#!/usr/bin/env python3
"""docs/walk.py: holds docs/WALK.md to the tool. Needs python3 without packages, and jobtool as JOBTOOL names it (target/programs/jobtool
otherwise).

    docs/walk.py            makes the files of examples/walk, runs every command of WALK.md in a folder of its own, in their order, and
                            writes what they print into WALK.md, and the pictures into docs/walk
    docs/walk.py --check    writes nothing; ends with 1 where a file, an output or a picture is not what it makes

A command is a line '$ COMMAND' of a fenced block. What follows it, up to the next command or the end of the block, is what it prints, on
standard output and standard error together. '$?' is the status of the command before.
"""
import colorsys
import os
import re
import struct
import subprocess
import sys
import tempfile
import zlib

TOP = os.path.join(os.path.dirname(os.path.abspath(__file__)), "..")
WALK = os.path.join(TOP, "docs", "WALK.md")
GIVEN = os.path.join(TOP, "examples", "walk")
PICTURES = os.path.join(TOP, "docs", "walk")
SIDE = 48
HEAD, FIELD = 6, 7                              # bytes of a job file's head, of a plunge and of the end
FOOT = b"\2\0\4" + bytes([17, 31, 2, 110])      # a plunge that no others cut together


def read(path):
    with open(path, "rb") as file:
        return file.read()


# ---- the files that the walk begins with

def depth(column, row):
    """A coin: a rim, a field, and on it the letter H."""
    x, y = 2 * column - SIDE + 1, 2 * row - SIDE + 1
    if x * x + y * y > 46 ** 2:
        return 0
    if x * x + y * y > 38 ** 2:
        return 60
    in_bar = 22 <= row <= 25 and 15 <= column <= 32
    in_stem = 14 <= row <= 33 and (15 <= column <= 19 or 28 <= column <= 32)
    return 110 if in_bar or in_stem else 20


def coin():
    return bytes(depth(column, row) for row in range(SIDE) for column in range(SIDE))


def job_file(head, plunges):
    return head + b"".join(plunges) + b"\3\0\4" + struct.pack(">I", len(plunges))


def table_field(entries):
    return b"\5" + struct.pack(">H", 2 * len(entries)) + struct.pack(f">{len(entries)}H", *entries)


def made_files(jobtool):
    """The picture; the coin's list from its last plunge to its first, one of them twice; the list without the foot of a stem; and a sink table."""
    scan = bytes([8, SIDE, SIDE]) + coin()
    job = subprocess.run([jobtool, "list"], input=scan, stdout=subprocess.PIPE, check=True).stdout
    plunges = [job[at:at + FIELD] for at in range(HEAD, len(job) - FIELD, FIELD)]
    return {
        "coin.pgm": b"P5\n%d %d\n255\n" % (SIDE, SIDE) + coin(),
        "other.job": job_file(job[:HEAD], plunges[::-1] + plunges[:1]),
        "less.job": job_file(job[:HEAD], [plunge for plunge in plunges if plunge != FOOT]),
        "graphite.table": table_field([22 * d for d in range(256)]),
    }


# ---- the commands

def run(command, status, folder, path):
    """What a command prints, and its status."""
    ended = subprocess.run(["sh", "-c", f"(exit {status})\n{command}"], cwd=folder, env={**os.environ, "PATH": path, "LC_ALL": "C"},
                           stdin=subprocess.DEVNULL, stdout=subprocess.PIPE, stderr=subprocess.STDOUT)
    return ended.stdout.decode(), ended.returncode


def walked(text, folder, path):
    """The document with what its commands print now."""
    out, fenced, skipping, status = [], False, False, 0
    for line in text.split("\n"):
        if line.startswith("```"):
            fenced, skipping = not fenced, False
        if fenced and line.startswith("$ "):
            printed, status = run(line[2:], status, folder, path)
            out += [line, *printed.rstrip("\n").split("\n")] if printed else [line]
            skipping = True
        elif not skipping:
            out.append(line)
    return "\n".join(out)


# ---- the pictures

CELL = 10                                       # pixels of a cell's side, its line included
LINE, MARK = (225, 225, 225), (200, 40, 40)


def grey(number):
    """Deep is dark; what is not cut is white."""
    return (255 - 2 * number,) * 3


def png(rows):
    """A picture of rows of colours, each cell enlarged, with a line at its right and below it."""
    data = b""
    for row in rows:
        wide = b"\0" + b"".join(bytes(colour) * (CELL - 1) + bytes(LINE) for colour in row)
        data += wide * (CELL - 1) + b"\0" + bytes(LINE) * (CELL * len(row))
    chunks = [(b"IHDR", struct.pack(">IIBBBBB", CELL * len(rows[0]), CELL * len(rows), 8, 2, 0, 0, 0)), (b"IDAT", zlib.compress(data, 9)), (b"IEND", b"")]
    return b"\x89PNG\r\n\x1a\n" + b"".join(struct.pack(">I", len(body)) + name + body + struct.pack(">I", zlib.crc32(name + body)) for name, body in chunks)


def pixels(data):
    """The bytes of a picture's rows, which do not depend on how they were packed."""
    start = data.find(b"IDAT")
    return start >= 0 and zlib.decompress(data[start + 4:start + 4 + struct.unpack(">I", data[start - 4:start])[0]])


def samples(path):
    """The rows of a picture that jobtool wrote."""
    header, rest = re.match(rb"P5\n(\d+) (\d+)\n255\n", read(path)), read(path)
    width, height = int(header.group(1)), int(header.group(2))
    return [list(rest[header.end() + row * width:][:width]) for row in range(height)]


def colours(reaches):
    """A colour for each reach, from blue, the smallest, to red."""
    steps = max(len(reaches) - 1, 1)
    return {reach: tuple(round(200 * part) for part in colorsys.hsv_to_rgb(2 * (steps - rank) / (3 * steps), 1, 1)) for rank, reach in enumerate(reaches)}


def centres(path):
    """Where plunges stand, by the text that jobtool shows of a job file."""
    lines = [[int(word) for word in line.split()] for line in open(path) if line[0].isdigit()]
    colour = colours(sorted({line[0] for line in lines}))
    rows = [[(255 - number // 2,) * 3 for number in row] for row in (coin()[at:at + SIDE] for at in range(0, SIDE * SIDE, SIDE))]
    for reach, row, column, _ in lines:
        rows[row][column] = colour[reach]
    return rows


def made_pictures(folder):
    """From the files that the commands left."""
    cut, less = samples(os.path.join(folder, "cut.pgm")), samples(os.path.join(folder, "less.pgm"))
    return {
        "coin.png": png([[grey(number) for number in row] for row in samples(os.path.join(folder, "coin.pgm"))]),
        "centres.png": png(centres(os.path.join(folder, "coin.txt"))),
        "cut.png": png([[grey(number) for number in row] for row in cut]),
        "less.png": png([[grey(one) if one == other else MARK for one, other in zip(*pair)] for pair in zip(less, cut)]),
    }


# ---- all together

def unlike_files(made, folder, same):
    for name, data in made.items():
        path = os.path.join(folder, name)
        if not os.path.isfile(path) or not same(read(path), data):
            yield f"{os.path.relpath(path, TOP)}: not what is made now"


def unlike_lines(text, now):
    """The first line of the document that is not printed now."""
    old, new = text.split("\n"), now.split("\n")
    for number, (one, other) in enumerate(zip(old, new), 1):
        if one != other:
            yield f"docs/WALK.md:{number}: {one!r} is there, {other!r} is printed now"
            return
    if len(old) != len(new):
        yield "docs/WALK.md: longer or shorter than what is printed now"


def write(made, folder):
    os.makedirs(folder, exist_ok=True)
    for name, data in made.items():
        with open(os.path.join(folder, name), "wb") as file:
            file.write(data)


def walk(jobtool, files, text):
    """The document and the pictures as they are now, by the commands in a folder of their own."""
    with tempfile.TemporaryDirectory() as top:
        folder, programs = os.path.join(top, "walk"), os.path.join(top, "bin")
        write(files, folder)
        os.mkdir(programs)
        os.symlink(jobtool, os.path.join(programs, "jobtool"))
        now = walked(text, folder, programs + os.pathsep + os.environ["PATH"])
        lost = [name for name in ("coin.txt", "cut.pgm", "less.pgm") if not os.path.isfile(os.path.join(folder, name))]
        return now, {} if lost else made_pictures(folder), [f"docs/WALK.md: its commands leave no {name}" for name in lost]


def main():
    jobtool = os.path.abspath(os.environ.get("JOBTOOL", os.path.join(TOP, "target", "programs", "jobtool")))
    if not os.access(jobtool, os.X_OK):
        sys.exit(f"docs/walk.py: no program {jobtool}: tools/build jobtool makes it, or JOBTOOL names another")
    text, files = read(WALK).decode(), made_files(jobtool)
    now, pictures, found = walk(jobtool, files, text)
    if sys.argv[1:] == ["--check"]:
        found += [*unlike_lines(text, now), *unlike_files(files, GIVEN, bytes.__eq__)]
        found += unlike_files(pictures, PICTURES, lambda old, new: pixels(old) == pixels(new))
    else:
        write(files, GIVEN)
        write(pictures, PICTURES)
        write({"WALK.md": now.encode()}, os.path.dirname(WALK))
    commands = len(re.findall(r"^\$ ", text, re.M))
    print("\n".join(found + [f"walk: {commands} commands, {len(pictures)} pictures, {len(files)} files, {len(found)} faults"]))
    sys.exit(bool(found))


if __name__ == "__main__":
    main()
