"""What the program jobtool should write: answers, refusals with their sentences, comparisons, statuses. Made from the words about it alone.

Lists and drawings are SciPy's, the readers are files.py and tables.py, motions are exact fractions, numbers as text are Python's own; figures
come from tests/test_summary.py, pictures and their faults from tests/test_pgm.py.
"""
import os
import re
import sys
from typing import NamedTuple

import numpy as np

import files
import motions
import peers
import tables

TOP = os.path.join(os.path.dirname(os.path.abspath(__file__)), "..")
sys.path.append(os.path.join(TOP, "tests"))
import test_pgm  # noqa: E402
import test_summary  # noqa: E402

LIMIT = 1048576
DONE, REFUSED, TROUBLE = 0, 1, 2
USAGE = b"usage: jobtool COMMAND [WORDS] [-o OUT]; jobtool --help tells the commands\n"
DIGITS = b"jobtool: a number of the scale has more than 15 digits\n"
DECIMAL = re.compile(r"-?(?=\.?[0-9])[0-9]*\.?[0-9]*\Z", re.ASCII)


class Told(NamedTuple):
    out: bytes
    said: bytes      # on standard error
    status: int


def wrong_use():
    return Told(b"", USAGE, TROUBLE)


def trouble(name, reason):
    return Told(b"", b"jobtool: " + shown_name(name) + b": " + reason.encode() + b"\n", TROUBLE)


def shown_name(name):
    """None is standard input. Of a name that no system call takes the beginning; control characters and backslashes in octal."""
    if name is None:
        return b"standard input"
    name, more = (name[:64], b"...") if len(name) > 4096 else (name, b"")
    return b"".join(b"\\%03o" % c if c < 32 or c in (92, 127) else bytes([c]) for c in name) + more


# ---- answers

def listed(kind, relief):
    climb = peers.rungs(relief, kind, by_balls=False)
    return [tuple(int(n) for n in p) for p in peers.listing(climb, peers.residues(climb, kind))]


def rungs_told(words, kind, relief):
    """The line that --rungs asks for."""
    return f"rungs {len(peers.rungs(relief, kind, by_balls=False)) - 1}\n".encode() if "--rungs" in words else b""


def drawn(job):
    return peers.drawn(job.kind, job.width, job.height, job.plunges, by_balls=False)


def tidied(job):
    return files.encode(job.kind, job.width, job.height, listed(job.kind, drawn(job)))


def job_text(job):
    lines = [f"plate {job.kind} {job.width} {job.height}"]
    lines += [f"{reach} {row} {column} {depth}" for column, row, reach, depth in job.plunges] + [f"total {len(job.plunges)}"]
    return "".join(line + "\n" for line in lines).encode()


def text_of(number):
    return repr(number).removesuffix(".0")


def number_of(text):
    """None where the text has too many digits."""
    if not DECIMAL.match(text):
        return float("nan")
    return float(text) if sum(c.isdigit() for c in text) <= 15 else None


def moved(plunges, table, pitch, x, y):
    lines, before = [], None
    for column, row, reach, depth in plunges:
        lines.append("stay" if reach == before else "change " + text_of(motions.rounded(2 * (2 * reach + 1) * motions.Fraction(pitch))))
        lines.append(f"travel {text_of(motions.travel(x, column, pitch))} {text_of(motions.travel(y, row, pitch))}")
        lines.append("sink " + text_of(motions.sink(reach, depth, table)))
        before = reach
    return "".join(line + "\n" for line in lines).encode()


def table_text(table):
    return "".join(f"depth {depth}: {entry} micrometres, {entry + entry // 10} at reach 0\n" for depth, entry in enumerate(table)).encode()


def picture_of(width, height, depths):
    return b"P5\n%d %d\n255\n" % (width, height) + bytes(depths)


# ---- refusals

def refused(name, number, place, sentence):
    return Told(b"", f"refused {number} {place}\n".encode() + b"jobtool: " + shown_name(name) + f": {sentence}\n".encode(), REFUSED)


def sorts(data):
    """What a file looks like."""
    begun = {"job": data[:3] == b"\1\0\3", "picture": data[:2] == b"P5", "scan": data[:1] in (b"\4", b"\x08")}
    return [sort for sort, met in begun.items() if met]


def another_sort(data, taken):
    """What a file looks like that is not of the sort that is taken."""
    made = {"job": "a job file: jobtool draw makes a scan", "picture": "a picture: jobtool scan makes a scan", "scan": "a scan: jobtool list makes a job file"}
    if not data:
        return "it is empty"
    return next((f"this looks like {made[sort]} of one" for sort in sorts(data) if sort != taken), None)


def plate_fault(kind, width, height):
    """The refusal of a plate, with its sentence."""
    if kind not in (4, 8):
        return 1, f"kind {kind} is not 4 or 8"
    if not (1 <= width <= 240 and 1 <= height <= 240):
        return 2, f"width {width} and height {height}: sides are 1 to 240"
    return None


def scan_refusal(name, data):
    kind, width, height = (list(data[:3]) + [0, 0, 0])[:3]
    fault = plate_fault(kind, width, height)
    if not fault and len(data) - 3 < width * height:
        fault = 4, f"the scan has {max(0, len(data) - 3)} depths, {width * height} are needed"
    return fault and refused(name, fault[0], 0, another_sort(data, "scan") or fault[1])


def job_sentence(data, number, place):
    """What is wrong with a job file at a place."""
    plunge = f"plunge number {(place - 6) // 7} at byte {place}"
    tag, length, content = data[place:place + 1], int.from_bytes(data[place + 1:place + 3], "big"), data[place + 3:place + 7]
    if number in (1, 2):
        return plate_fault(*data[3:6])[1]
    if number == 6:
        return f"the file ends at byte {place} without an end field" if place == len(data) else f"the file ends inside the field at byte {place}"
    return {7: f"the field at byte {place} has tag {tag[0] if tag else 0} and length {length}, which is not allowed there",
            8: f"{plunge}: its ball leaves the plate",
            9: f"{plunge}: its depth is 0",
            10: f"the end field at byte {place} says {int.from_bytes(content, 'big')} plunges, the file has {(place - 6) // 7}",
            11: f"the file goes on behind its end field, from byte {place} on",
            12: f"not tidy: the tidied file is unlike this one from byte {place} on"}[number]


def job_refusal(name, data, number, place):
    return refused(name, number, place, another_sort(data, "job") or job_sentence(data, number, place))


def scale_refusal(name, pitch, x, y):
    if not motions.within(pitch, motions.LEAST_PITCH, motions.LARGEST_PITCH):
        return refused(name, 13, 0, "the half pitch is not a number from 0.0625 to 4")
    side = "row" if motions.within(x, 0, motions.LARGEST_OFFSET) else "column"
    return refused(name, 13, 0, f"the {side} offset is not a number from 0 to 1000")


def table_sentence(data, number, place):
    """What is wrong with a sink table at a place."""
    if not data:
        return "it is empty"
    for sort in sorts(data):
        return f"this looks like {'a job file' if sort == 'job' else 'a ' + sort}, not a sink table"
    entry = f"entry {(place - 3) // 2} at byte {place} is {int.from_bytes(data[place:place + 2], 'big')}"
    return {6: f"a sink table has 515 bytes, this file has {len(data)}",
            7: f"the field has tag {data[0]} and length {int.from_bytes(data[1:3], 'big')}, a sink table has 5 and 512",
            11: "the file goes on behind the sink table, from byte 515 on",
            15: f"{entry}: entry 0 must be 0, each larger than the one before, none above 50000"}[number]


def table_refusal(name, data):
    reading = tables.read(data)
    return refused(name, reading.number, reading.place, table_sentence(data, reading.number, reading.place)) if reading.number else None


# ---- commands

def list_scan(words, name, data):
    kind, width, height = (list(data[:3]) + [0, 0, 0])[:3]
    refusal = scan_refusal(name, data)
    if refusal:
        return refusal
    relief = np.frombuffer(data[3:3 + width * height], np.uint8).reshape(height, width)
    return Told(files.encode(kind, width, height, listed(kind, relief)), rungs_told(words, kind, relief), DONE)


def scan_picture(name, data, kind):
    try:
        width, height, at = test_pgm.picture(data)
    except test_pgm.Fault as fault:
        return Told(b"", b"jobtool: " + shown_name(name) + f": {fault}\n".encode(), REFUSED)
    return Told(bytes([kind, width, height]) + data[at:at + width * height], b"", DONE)


def picture(name, data):
    """A file that begins as a job file does is one; any other is a scan."""
    if data[:3] == b"\1\0\3":
        job = files.read(data)
        return job_refusal(name, data, job.number, job.place) if job.number else Told(picture_of(job.width, job.height, drawn(job).tobytes()), b"", DONE)
    return scan_refusal(name, data) or Told(picture_of(data[1], data[2], data[3:3 + data[1] * data[2]]), b"", DONE)


def check(name, data, job):
    tidy = tidied(job)
    if tidy == data:
        return Told(b"tidy\n", b"", DONE)
    return job_refusal(name, data, 12, next(i for i, (a, b) in enumerate(zip(data, tidy)) if a != b))


def by_table(words, named, field, data, name=None):
    """motions with --table: the table's file is named, and judged before the job is."""
    return table_refusal(named, field) or wanted(words, data, name, tables.read(field).table)


def wanted(words, data, name=None, table=tables.BUILT_IN):
    """What a command should write of one input; motions by a table."""
    if words[0] == "table":
        return table_refusal(name, data) or Told(table_text(tables.read(data).table), b"", DONE)
    if words[0] == "list":
        return list_scan(words, name, data)
    if words[0] == "scan":
        return scan_picture(name, data, int(words[2]) if len(words) > 1 else 8)
    if words[0] == "picture":
        return picture(name, data)
    job = files.read(data)
    if job.number:
        return job_refusal(name, data, job.number, job.place)
    if words[0] == "check":
        return check(name, data, job)
    if words[0] == "motions":
        scale = [number_of(text) for text in words[1:]]
        return Told(moved(job.plunges, table, *scale), b"", DONE) if motions.scale_is_good(*scale) else scale_refusal(name, *scale)
    if words[0] == "tidy":
        return Told(tidied(job), rungs_told(words, job.kind, drawn(job)), DONE)
    made = {"draw": lambda: bytes([job.kind, job.width, job.height]) + drawn(job).tobytes(),
            "show": lambda: job_text(job), "info": lambda: test_summary.text_of(data).encode()}
    return Told(made[words[0]](), b"", DONE)


def several(command, named):
    """check, show and info of several inputs, a list of names with their bytes."""
    out, said, status = b"", b"", DONE
    for name, data in named:
        told = wanted([command], data, name)
        if told.status == DONE:
            out += shown_name(name) + (b": " if command == "check" else b":\n") + told.out
        said, status = said + told.said, max(status, told.status)
    return Told(out, said, status)


def same(first, second):
    """Two inputs, each a name with its bytes. The reliefs are compared by numpy; the canonical forms must say the same."""
    jobs = [files.read(data) for _, data in (first, second)]
    for (name, data), job in zip((first, second), jobs):
        if job.number:
            return job_refusal(name, data, job.number, job.place)._replace(status=TROUBLE)
    a, b = jobs
    if a.kind != b.kind:
        return Told(f"kind {a.kind} and {b.kind}\n".encode(), b"", REFUSED)
    if (a.width, a.height) != (b.width, b.height):
        return Told(f"size {a.width} by {a.height} and {b.width} by {b.height}\n".encode(), b"", REFUSED)
    reliefs = drawn(a), drawn(b)
    differing = np.argwhere(reliefs[0] != reliefs[1])
    assert (tidied(a) == tidied(b)) == (not len(differing))
    if not len(differing):
        return Told(b"same\n", b"", DONE)
    row, column = (int(n) for n in differing[0])
    return Told(f"column {column}, row {row}: depth {reliefs[0][row, column]} and {reliefs[1][row, column]}\n".encode(), b"", REFUSED)
