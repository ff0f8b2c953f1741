"""Runs the program jobtool and compares all that it writes, and its status, with what told.py says. Started by conformance/run.

    /usr/bin/python3 conformance/tool.py             the run; 300 scans unless --scans N
    /usr/bin/python3 conformance/tool.py --rows      only the rows: one function for each promise about outputs, statuses, words and names
    /usr/bin/python3 conformance/tool.py --store     writes the gate's stored run, crates/run_jobtool/{args,stdout,data/coin.job}
    /usr/bin/python3 conformance/tool.py --check     only compares that stored run, and runs no program: ends with 1 if it differs

The program is target/programs/jobtool, or what JOBTOOL names (and one row runs target/programs/plunges, or what PLUNGES names). What needs
root, a mount or a C compiler is left out without them, and that is said.
"""
import argparse
import os
import pty
import resource
import shutil
import signal
import stat
import subprocess
import sys
import tempfile
import time

import cv2
import numpy as np

import files
import scans
import tables
import told
from told import DONE, LIMIT, REFUSED, TROUBLE, Told, trouble, wrong_use

TOOL = os.path.abspath(os.environ.get("JOBTOOL") or os.path.join(told.TOP, "target", "programs", "jobtool"))
PLUNGES = os.path.abspath(os.environ.get("PLUNGES") or os.path.join(told.TOP, "target", "programs", "plunges"))
CRATE = os.path.join(told.TOP, "crates", "run_jobtool")
SCALE = ["0.125", "12.5", "7.3"]
MOTIONS = ["motions", *SCALE]
BY_TABLE = [*MOTIONS, "--table", "table"]
COMMANDS = [["list"], ["draw"], ["tidy"], ["check"], ["show"], ["info"], MOTIONS, BY_TABLE, ["scan"], ["picture"], ["table"]]
WORDS = ["0.0625", "4", "0.5", ".5", "5.", "-0", "-0.0", "0", "1000", "1000.0", "1000.00000000001", "4.0000000000001", "0.06249999999999", "-1", "nan",
         "inf", "abc", "", ".", "-.", "1e1", "+1", " 1", "1 ", "0x1", "1.2.3", "--1", "1,5", "00000000000001.5", "0.00000000000001", "999.99999999999"]
TIDY = files.encode(8, 3, 3, [(1, 1, 0, 9), (1, 1, 1, 4)])
UNTIDY = files.encode(8, 3, 3, [(1, 1, 1, 4), (1, 1, 0, 9)])
SCAN = bytes([8, 3, 3, 4, 4, 4, 4, 9, 4, 4, 4, 4])
PICTURE = told.picture_of(3, 3, SCAN[3:])
TABLE = tables.encode(range(0, 256 * 7, 7))
READY = {"in": TIDY, "untidy": UNTIDY, "scan": SCAN, "picture": PICTURE, "table": TABLE}    # one input of each sort
OLD = b"as it was"


def wanted(words, data, name=None):
    """What a command should write of one input; the table of BY_TABLE is TABLE."""
    return told.by_table(MOTIONS, b"table", TABLE, data, name) if words == BY_TABLE else told.wanted(words, data, name)


# ---- running

def put(folder, name, data):
    with open(os.path.join(folder, name), "wb") as out:
        out.write(data)


def get(folder, name):
    with open(os.path.join(folder, name), "rb") as read:
        return read.read()


def told_of(done):
    return Told(done.stdout or b"", done.stderr or b"", done.returncode)


class Run:
    def __init__(self, folder, most_told):
        self.folder, self.most_told, self.compared, self.differences = folder, most_told, 0, 0

    def path(self, name):
        return os.path.join(self.folder, name)

    def start(self, words, data=b"", **how):
        """Runs the program in the folder; standard input is the data, or what `stdin` says."""
        how = {"stdout": subprocess.PIPE, "stderr": subprocess.PIPE, "cwd": self.folder, "timeout": 20, "executable": TOOL, **how}
        how.update({} if "stdin" in how else {"input": data})
        try:
            return told_of(subprocess.run(["jobtool", *words], check=False, **how))
        except subprocess.TimeoutExpired:
            return Told(b"", b"it waits", -1)

    def hold(self, what, got, want):
        self.compared += 1
        if got != want:
            self.differences += 1
            if self.differences <= self.most_told:
                print(f"difference: {what!r:.300}\n  got    {got!r:.600}\n  wanted {want!r:.600}")

    def pipe(self, words, data):
        """From standard input to standard output; gives what is wanted there."""
        want = wanted(words, data)
        self.hold((words, data[:99]), self.start(words, data), want)
        return want.out

    def clean(self):
        for name in os.listdir(self.folder):
            path = self.path(name)
            (shutil.rmtree if os.path.isdir(path) and not os.path.islink(path) else os.remove)(path)

    def name(self, words, data):
        """From a file to a file, the option before and after the words. A refusal leaves the file of the answer as it was."""
        want = wanted(words, data, b"in")
        for order in ([*words, "in", "-o", "out"], [words[0], "-o", "out", *words[1:], "in"]):
            put(self.folder, "in", data)
            put(self.folder, "out", OLD)
            self.hold((order, data[:99]), self.start(order), want._replace(out=b""))
            self.hold((order, "files"), self.files(), {"in": data, "out": OLD if want.status else want.out})
        self.hold((words, "in place"), self.start([*words, "in", "-o", "in"]), want._replace(out=b""))
        self.hold((words, "in place"), get(self.folder, "in"), data if want.status else want.out)
        self.clean()

    def files(self):
        """Every file of the folder with its bytes."""
        return {name: get(self.folder, name) for name in os.listdir(self.folder)}


# ---- scans and what is made of them

def some_number(rng, most):
    text = f"{rng.uniform(0, most):.{rng.integers(0, 12)}f}"
    return WORDS[rng.integers(len(WORDS))] if rng.random() < 0.15 else text


def some_scale(rng):
    """The last word is a number: one that is none is taken for a name."""
    scale = [some_number(rng, 4.5), some_number(rng, 1100), some_number(rng, 1100)]
    return scale if told.DECIMAL.match(scale[2]) else [*scale[:2], "5"]


def damaged(rng, data):
    bad = bytearray(data)
    bad[int(rng.integers(len(bad)))] = int(rng.integers(256))
    return bytes(bad[:int(rng.integers(len(bad) + 1))] if rng.random() < 0.5 else bad)


def pictures(run, rng, kind, relief):
    """A scan becomes a picture that OpenCV reads, and the picture of OpenCV the scan again."""
    height, width = relief.shape
    scan = bytes([kind, width, height]) + relief.tobytes()
    made = run.pipe(["picture"], scan)
    run.hold("a picture by OpenCV", cv2.imdecode(np.frombuffer(made, np.uint8), cv2.IMREAD_UNCHANGED).tobytes(), relief.tobytes())
    written = cv2.imencode(".pgm", relief)[1].tobytes()
    for picture in (made, written):
        run.hold("a scan of a picture", run.start(["scan", "--kind", str(kind)], picture), Told(scan, b"", DONE))
    for words in (["scan"], ["scan", "--kind", "4"]):
        run.pipe(words, damaged(rng, made))
    run.pipe(["picture"], damaged(rng, scan))


def comparisons(run, rng, file, mixed):
    """A file with its own list in any order, with another depth at one plunge, with another kind or size; both ways round."""
    job = files.read(file)
    altered = list(job.plunges)
    if altered:
        at = int(rng.integers(len(altered)))
        altered[at] = (*altered[at][:3], int(rng.integers(1, 256)))
    others = [mixed, files.encode(job.kind, job.width, job.height, altered), files.encode(12 - job.kind, job.width, job.height, job.plunges),
              files.encode(job.kind, min(240, job.width + 1), job.height, job.plunges), damaged(rng, mixed)]
    for other in others:
        for first, second in ((file, other), (other, file)):
            put(run.folder, "a", first)
            put(run.folder, "b", second)
            run.hold(("same", first[:99], second[:99]), run.start(["same", "a", "b"]), told.same((b"a", first), (b"b", second)))
            run.hold(("same", "-"), run.start(["same", "a", "-"], second), told.same((b"a", first), (None, second)))
    run.clean()


def one_scan(run, rng, index):
    _, relief = scans.scan(rng, index, lambda rng, index: rng.integers(1, 41, 2))
    relief = np.ascontiguousarray(relief, np.uint8)
    kind = int(rng.choice([4, 8]))
    height, width = relief.shape
    scan = bytes([kind, width, height]) + relief.tobytes()
    file = run.pipe(["list"], scan + bytes(int(rng.integers(0, 3))))
    run.pipe(["list", "--rungs"], scan)
    job = files.read(file)
    mixed = [job.plunges[i] for i in rng.integers(0, max(1, len(job.plunges)), 2 * len(job.plunges))]
    mixed = files.encode(kind, width, height, mixed)
    of_job = [["draw"], ["tidy"], ["tidy", "--rungs"], ["check"], ["show"], ["info"], ["picture"], ["motions", *some_scale(rng)]]
    for data in (file, mixed):
        for words in of_job:
            run.pipe(words, data)
    bad = damaged(rng, mixed)
    for words in [["list"], ["list", "--rungs"], ["scan"], *of_job]:
        (run.pipe if index % 10 else run.name)(words, bad)
    pictures(run, rng, kind, relief)
    motions_by_tables(run, rng, file, mixed, bad)
    if index % 10 == 0:
        for words in of_job:
            run.name(words, mixed)
        for words in (["list"], ["list", "--rungs"], ["picture"]):
            run.name(words, scan)
        run.name(["scan"], told.picture_of(width, height, relief.tobytes()))
    if index % 5 == 0:
        comparisons(run, rng, file, mixed)
        several_inputs(run, {b"file": file, b"mixed": mixed, b"bad": bad})


def motions_by_tables(run, rng, *jobs):
    """Motions by a table that is legal, and by one that mostly is not."""
    words = ["motions", *some_scale(rng)]
    for field in (tables.encode(tables.some_table(rng)), next(tables.twice(rng, tables.some_table(rng), 1))):
        put(run.folder, "table", field)
        for data in jobs:
            run.hold((words, "by a table"), run.start([*words, "--table", "table"], data), told.by_table(words, b"table", field, data))
        run.pipe(["table"], field)
    run.clean()


def several_inputs(run, named):
    """check, show and info of all of them and of each twice, one by standard input; the output is replaced only if all are accepted."""
    for name, data in named.items():
        put(run.folder, name.decode(), data)
    names = list(named)
    for command in ("check", "show", "info"):
        for order in (names, names[::-1], names[:1] * 2, names[1:2] * 3):
            want = told.several(command, [(name, named[name]) for name in order])
            run.hold((command, order), run.start([command, *order]), want)
            put(run.folder, "out", OLD)
            run.hold((command, order, "-o"), run.start([command, *order, "-o", "out"]), want._replace(out=b""))
            run.hold((command, order, "out"), get(run.folder, "out"), OLD if want.status else want.out)
        want = told.several(command, [(names[0], named[names[0]]), (None, named[names[1]]), (names[2], named[names[2]])])
        run.hold((command, "-"), run.start([command, names[0], "-", names[2]], named[names[1]]), want)
    run.clean()


# ---- by hand

def by_hand(run):
    run.hold("worked example", run.start(["show"], run.start(["list"], SCAN).out), Told(b"plate 8 3 3\n0 1 1 9\n1 1 1 4\ntotal 2\n", b"", DONE))
    run.hold("rungs", run.start(["list", "--rungs"], SCAN), Told(TIDY, b"rungs 2\n", DONE))
    run.hold("rungs, all 0", run.start(["list", "--rungs"], bytes([8, 3, 3]) + bytes(9)), Told(files.encode(8, 3, 3, []), b"rungs 0\n", DONE))
    run.hold("rungs, refused", b"rungs" in run.start(["tidy", "--rungs"], TIDY[:-1]).said, False)
    run.hold("a picture", run.start(["picture"], SCAN).out, b"P5\n3 3\n255\n\4\4\4\4\x09\4\4\4\4")
    run.hold("info", run.start(["info"], TIDY).out,
             b"plate 3 by 3, kind 8\nplunges 2\nreach 0: plunges 1, depths 9 to 9\nreach 1: plunges 1, depths 4 to 4\n"
             b"changes 2\ntravel 0 cells\nvolume 41\ntidy yes\n")
    none = files.encode(8, 3, 3, [])
    for word in WORDS:
        for place in range(3):
            scale = ["0.5", "10", "20"]
            scale[place] = word
            for data in (none, files.encode(8, 3, 3, [(1, 1, 1, 4)])):
                put(run.folder, "in", data)
                run.hold(("scale", scale), run.start(["motions", *scale, "in"]), wanted(["motions", *scale], data, b"in"))
    for text in ("0.5000000000000000", "0000000000000000", "1" * 5000):
        for place in range(3):
            scale = ["0.5", "10", "20"]
            scale[place] = text
            run.hold(("digits", place, text[:20]), run.start(["motions", *scale, "in"]), Told(b"", told.DIGITS, TROUBLE))
    for picture in picture_headers():
        run.pipe(["scan"], picture)
    run.clean()


def picture_headers():
    """The pictures of tests/test_pgm.py."""
    tests = told.test_pgm
    for part in (tests.headers, tests.numbers, tests.rasters):
        part()
    return [literal + bytes([byte]) * more for call, _, _, _, literal, more, byte in tests.RECORDS if call == 0]


def limits(run):
    surplus = bytes([8, 1, 1, 9]) + bytes(LIMIT - 4)
    run.hold("an input of the limit", run.start(["list"], surplus), Told(files.encode(8, 1, 1, [(0, 0, 0, 9)]), b"", DONE))
    put(run.folder, "in", surplus + b"\0")
    put(run.folder, "table", TABLE)
    for words in COMMANDS:
        run.hold((words, "a longer input"), run.start(words, surplus + b"\0"), trouble(None, f"longer than {LIMIT} bytes"))
        run.hold((words, "a longer file"), run.start([*words, "in"]), trouble(b"in", f"longer than {LIMIT} bytes"))
    number = (LIMIT - 13) // 7
    long = files.encode(4, 1, 1, [(0, 0, 0, 1 + i % 255) for i in range(number)])
    run.hold("a long file", run.start(["tidy"], long), Told(files.encode(4, 1, 1, [(0, 0, 0, 255)]), b"", DONE))
    for words in (["show"], ["motions", "0.1", "0.2", "0.3"], ["info"], ["check"]):
        run.pipe(words, long)
    run.clean()


def largest_plate(run):
    """Noise, and noise on slopes, which has the longest list of all that were tried: nine tenths of the limit."""
    noise = np.random.default_rng(7).integers(0, 256, (240, 240))
    side = np.minimum(np.arange(240), np.arange(240)[::-1])
    for kind, relief in ((4, noise), (8, 255 - 2 * np.minimum(side[:, None], side) - noise // 16)):
        depths = relief.clip(0, 255).astype(np.uint8).tobytes()
        file = run.pipe(["list"], bytes([kind, 240, 240]) + depths)
        for words in (["draw"], ["tidy"], ["check"], ["show"], ["info"], ["picture"], ["motions", *SCALE]):
            run.pipe(words, file)
        run.pipe(["picture"], bytes([kind, 240, 240]) + depths)
        run.pipe(["scan"], told.picture_of(240, 240, depths))


# ---- rows: one function for each promise about outputs, statuses, words and names

def ready(run):
    """The inputs, and a file that is to be replaced."""
    run.clean()
    for name, data in {**READY, "out": OLD}.items():
        put(run.folder, name, data)


def input_of(words):
    return {"list": "scan", "scan": "picture", "table": "table"}.get(words[0], "in")


def skipped(row, why):
    print(f"jobtool: not tried: {row}: {why}")


def row_output_only_behind_o(run):
    put(run.folder, "b", UNTIDY)
    run.hold("check a b", run.start(["check", "in", "b"]), told.several("check", [(b"in", TIDY), (b"b", UNTIDY)]))
    for words in COMMANDS:
        got = run.start([*words, input_of(words), "out"])
        if words[0] in ("check", "show", "info"):
            run.hold((words, "two inputs"), got.status, REFUSED)
        else:
            run.hold((words, "two names"), got, wrong_use())
        run.hold((words, "files"), (get(run.folder, "out"), get(run.folder, "b")), (OLD, UNTIDY))
    for order in (["tidy", "-o", "out", "untidy"], ["tidy", "untidy", "-o", "out"]):
        put(run.folder, "out", OLD)
        run.hold(order, (run.start(order), get(run.folder, "out")), (Told(b"", b"", DONE), TIDY))
    run.hold("a new file", (run.start(["tidy", "untidy", "-o", "new"]), get(run.folder, "new")), (Told(b"", b"", DONE), TIDY))
    run.hold("in place", (run.start(["tidy", "untidy", "-o", "untidy"]), get(run.folder, "untidy")), (Told(b"", b"", DONE), TIDY))
    run.hold("same", (run.start(["same", "in", "b", "-o", "out"]), get(run.folder, "out")), (Told(b"", b"", DONE), b"same\n"))


def device(run, name, minor):
    """A device of our own where one can be made, so that no fault of the program can harm the system's."""
    if os.getuid() == 0:
        try:
            os.mknod(run.path(name), 0o666 | stat.S_IFCHR, os.makedev(1, minor))
            with open(run.path(name), "rb"):
                return name
        except OSError:
            skipped("devices", "none can be made here")
            return None
    return f"/dev/{name}"


def row_devices(run):
    null, full = device(run, "null", 3), device(run, "full", 7)
    for words in COMMANDS if null and full else []:
        run.hold((words, "null"), run.start([*words, input_of(words), "-o", null]), Told(b"", b"", DONE))
        run.hold((words, "full"), run.start([*words, input_of(words), "-o", full]), trouble(full.encode(), "No space left on device"))
        run.hold((words, "devices"), [stat.S_ISCHR(os.stat(run.path(name)).st_mode) for name in (null, full)], [True, True])
    os.symlink("/dev/full", run.path("link"))
    run.hold("a link to a device", run.start(["tidy", "in", "-o", "link"]), trouble(b"link", "No space left on device"))
    run.hold("a link to a device", os.readlink(run.path("link")), "/dev/full")
    for words in COMMANDS:
        with open("/dev/full", "wb") as out:
            run.hold((words, "standard output"), run.start([*words, input_of(words)], stdout=out), trouble(b"standard output", "No space left on device"))


def row_pipes(run):
    os.mkfifo(run.path("pipe"))
    with subprocess.Popen(["cat", run.path("pipe")], stdout=subprocess.PIPE) as reader:
        got = run.start(["tidy", "untidy", "-o", "pipe"])
        run.hold("a pipe", got, Told(b"", b"", DONE))
        if got != Told(b"", b"", DONE) or not stat.S_ISFIFO(os.stat(run.path("pipe")).st_mode):
            reader.kill()
        run.hold("a pipe's reader", reader.stdout.read(), TIDY)
    run.hold("a pipe stays one", stat.S_ISFIFO(os.lstat(run.path("pipe")).st_mode), True)


def row_pipes_by_number(run):
    """As a shell names them: their links lead to no name. A link of our own stands for /dev/stdout, which a fault could replace."""
    os.symlink("/proc/self/fd/1", run.path("stdout"))
    for name in ("stdout", "/dev/fd/1", "/proc/self/fd/1"):
        run.hold(("a pipe by its number", name), run.start(["tidy", "untidy", "-o", name]), Told(TIDY, b"", DONE))


def row_links(run):
    os.makedirs(run.path("far/away"))
    put(run.folder, "far/away/file", OLD)
    links = {"link": "out", "chain": "far/second", "far/second": "away/third", "far/away/third": "file", "whole": run.path("far/away/file"),
             "up": "far/../out", "dangling": "far/new", "chain2": "dangling2", "dangling2": os.path.join(run.folder, "far", "new2")}
    for name, target in links.items():
        os.symlink(target, run.path(name))
    led = {"link": "out", "chain": "far/away/file", "whole": "far/away/file", "up": "out", "dangling": "far/new", "chain2": "far/new2"}
    for name, target in led.items():
        if os.path.exists(run.path(target)):
            put(run.folder, target, OLD)
        run.hold(("link", name), run.start(["tidy", "untidy", "-o", name]), Told(b"", b"", DONE))
        run.hold(("link", name, "file"), (os.path.exists(run.path(target)) and get(run.folder, target), os.path.islink(run.path(target))), (TIDY, False))
    run.hold("links stay", {name: os.readlink(run.path(name)) for name in links if os.path.islink(run.path(name))}, links)
    run.hold("nothing else", sorted(os.listdir(run.path("far")) + os.listdir(run.path("far/away"))), ["away", "file", "new", "new2", "second", "third"])
    os.symlink("round", run.path("round"))
    run.hold("a link to itself", run.start(["tidy", "in", "-o", "round"]), trouble(b"round", "Too many levels of symbolic links"))
    os.symlink("none/file", run.path("lost"))
    run.hold("a link into no folder", run.start(["tidy", "in", "-o", "lost"]), trouble(b"lost", "No such file or directory"))
    os.symlink("in", run.path("from"))
    run.hold("a link for input", run.start(["check", "from"]), Told(b"tidy\n", b"", DONE))


def row_modes(run):
    for mode in (0o600, 0o755, 0o640, 0o666, 0o644):
        put(run.folder, "out", OLD)
        os.chmod(run.path("out"), mode)
        run.hold((oct(mode), "run"), run.start(["tidy", "untidy", "-o", "out"]), Told(b"", b"", DONE))
        run.hold((oct(mode), "kept"), (oct(stat.S_IMODE(os.stat(run.path("out")).st_mode)), get(run.folder, "out")), (oct(mode), TIDY))
    for umask in (0o022, 0o077, 0o002, 0):
        run.start(["tidy", "untidy", "-o", f"new{umask}"], preexec_fn=lambda umask=umask: os.umask(umask))
        made = run.path(f"new{umask}")
        run.hold(("umask", oct(umask)), os.path.exists(made) and oct(stat.S_IMODE(os.stat(made).st_mode)), oct(0o666 & ~umask))


def row_mode_of_the_part(run):
    """A file that others may not read is never readable to them on its way."""
    os.chmod(run.path("out"), 0o600)
    with waiting(run, ["tidy", "-", "-o", "out"]) as ran:
        modes = [oct(stat.S_IMODE(os.stat(run.path(name)).st_mode)) for name in parts(run)]
        ran.communicate(UNTIDY)
    run.hold("the part of a 0600 file", (modes, get(run.folder, "out")), (["0o600"], TIDY))


def as_nobody():
    os.setgroups([])
    os.setgid(65534)
    os.setuid(65534)


def row_write_protected(run):
    """As a user who may not write the file, but may write the folder."""
    tool, how = TOOL, {}
    if os.getuid() == 0:
        os.chmod(run.folder, 0o777)
        tool = shutil.copy(TOOL, run.path("tool"))
        os.chmod(tool, 0o755)
        how = {"preexec_fn": as_nobody, "executable": tool}
    try:
        seen = run.start(["--version"], **how).status
    except (OSError, subprocess.SubprocessError):
        seen = -1
    if seen != DONE:
        run.hold("another user", seen in (DONE, -1), True)
        return skipped("write protection", "the program cannot be run as another user")
    for mode in (0o444, 0o400, 0o555):
        os.chmod(run.path("out"), mode)
        run.hold((oct(mode), "protected"), run.start(["tidy", "in", "-o", "out"], **how), trouble(b"out", "Permission denied"))
        run.hold((oct(mode), "whole"), (get(run.folder, "out"), stat.S_IMODE(os.stat(run.path("out")).st_mode), parts(run)), (OLD, mode, []))
    os.mkdir(run.path("shut"), 0o755)
    put(run.folder, "shut/out", OLD)
    os.chmod(run.path("shut/out"), 0o666)
    os.chmod(run.path("shut"), 0o555)
    run.hold("a protected folder", run.start(["tidy", "in", "-o", "shut/new"], **how), trouble(b"shut/new", "Permission denied"))
    run.hold("its files", (os.listdir(run.path("shut")), get(run.folder, "shut/out")), (["out"], OLD))
    os.chmod(run.path("shut"), 0)
    run.hold("a shut folder", run.start(["tidy", "in", "-o", "shut/out"], **how), trouble(b"shut/out", "Permission denied"))
    os.chmod(run.path("shut"), 0o755)
    os.chmod(run.path("untidy"), 0)
    run.hold("an input that may not be read", run.start(["tidy", "untidy"], **how), trouble(b"untidy", "Permission denied"))


def row_owner(run):
    if os.getuid() != 0:
        return skipped("owners", "only root may give files away")
    for owner, group, mode in ((1234, 5678, 0o640), (65534, 0, 0o600), (0, 77, 0o755)):
        put(run.folder, "out", OLD)
        os.chown(run.path("out"), owner, group)
        os.chmod(run.path("out"), mode)
        run.hold(("owner", owner), run.start(["tidy", "untidy", "-o", "out"]), Told(b"", b"", DONE))
        status = os.stat(run.path("out"))
        run.hold(("owner", owner, "kept"), (status.st_uid, status.st_gid, stat.S_IMODE(status.st_mode), get(run.folder, "out")), (owner, group, mode, TIDY))


def row_full_disk(run):
    disk = run.path("disk")
    os.mkdir(disk)
    if os.getuid() != 0 or subprocess.run(["mount", "-t", "tmpfs", "-o", "size=64k", "none", disk], stderr=subprocess.DEVNULL, check=False).returncode:
        return skipped("a full disk", "none can be mounted; a limit of a file's size is tried in its place")
    try:
        put(disk, "out", OLD)
        put(run.folder, "large", bytes([8, 240, 240]) + bytes(57600))
        for filled in (20000, 61440):
            put(disk, "filling", bytes(filled))
            run.hold(("a full disk", filled), run.start(["picture", "large", "-o", "disk/out"]), trouble(b"disk/out", "No space left on device"))
            run.hold(("old file", filled), (get(disk, "out"), sorted(os.listdir(disk))), (OLD, ["filling", "out"]))
        run.hold("a new file", run.start(["picture", "large", "-o", "disk/new"]), trouble(b"disk/new", "No space left on device"))
        os.remove(os.path.join(disk, "filling"))
        run.hold("room again", (run.start(["tidy", "untidy", "-o", "disk/out"]), get(disk, "out"), os.listdir(disk)), (Told(b"", b"", DONE), TIDY, ["out"]))
    finally:
        subprocess.run(["umount", disk], check=True)


def row_limit_of_a_file(run):
    def limited():
        signal.signal(signal.SIGXFSZ, signal.SIG_IGN)
        resource.setrlimit(resource.RLIMIT_FSIZE, (1000, 1000))
    put(run.folder, "large", bytes([8, 40, 40]) + bytes(range(1, 251)) * 7)
    for words in (["list", "large"], ["picture", "large"]):
        run.hold((words, "a limit"), run.start([*words, "-o", "out"], preexec_fn=limited), trouble(b"out", "File too large"))
        run.hold((words, "new"), run.start([*words, "-o", "new"], preexec_fn=limited), trouble(b"new", "File too large"))
        run.hold((words, "left"), (get(run.folder, "out"), parts(run), os.path.exists(run.path("new"))), (OLD, [], False))
    run.hold("within the limit", (run.start(["tidy", "untidy", "-o", "out"], preexec_fn=limited), get(run.folder, "out")), (Told(b"", b"", DONE), TIDY))


def parts(run):
    return [name for name in os.listdir(run.folder) if name.endswith(".part")]


def row_leftover_part(run):
    left = {name: b"left over" for name in ("out.part", "jobtool-1.part", "jobtool-4294967295.part", ".part", "jobtool.part")}
    for name, data in left.items():
        put(run.folder, name, data)
    for _ in range(3):
        run.hold("beside a part", (run.start(["tidy", "untidy", "-o", "out"]), get(run.folder, "out")), (Told(b"", b"", DONE), TIDY))
    run.hold("the parts", {name: get(run.folder, name) for name in parts(run)}, left)


class waiting:
    """The program, waiting for its standard input with its output begun."""

    def __init__(self, run, words):
        self.run, self.words = run, words

    def __enter__(self):
        self.ran = subprocess.Popen(["jobtool", *self.words], executable=TOOL, cwd=self.run.folder, stdin=subprocess.PIPE, stdout=subprocess.PIPE,
                                    stderr=subprocess.PIPE)
        until = time.monotonic() + 2
        while not parts(self.run) and self.ran.poll() is None and time.monotonic() < until:
            time.sleep(0.01)
        return self.ran

    def __exit__(self, *_):
        if self.ran.poll() is None:
            self.ran.kill()
        self.ran.communicate()


def row_killed(run):
    """Ended in the middle, by a signal that nothing can be done about: the old file is whole, and the next run is not hindered."""
    for _ in range(3):
        with waiting(run, ["tidy", "-", "-o", "out"]) as ran:
            run.hold("it waits", ran.poll(), None)
            ran.kill()
        run.hold("killed", (get(run.folder, "out"), ran.returncode), (OLD, -signal.SIGKILL))
    run.hold("afterwards", (run.start(["tidy", "untidy", "-o", "out"]), get(run.folder, "out")), (Told(b"", b"", DONE), TIDY))


def split(lines):
    """Command lines behind one another."""
    return [line.split() for line in lines.split("; ")]


WRONG = [[], [""], ["scan", "--kind", "", "picture"]] + split(
    "paint; lis; listlistlistlistlistlist; -o; --kind; list a b; draw a b; tidy a b; scan a b; picture a b; same; same in; same in in in; motions; motions 1; "
    "motions 1 2; motions 1 2 3 in in; tidy in -o; tidy -o a -o b in; tidy in -x; tidy --output a in; tidy --kind 4 in; scan --kind; scan --kind 5 picture; "
    "scan --kind 44 picture; scan --kind 4 --kind 4 picture; "
    "draw --rungs in; check in --rungs; show --rungs in; info --rungs in; same --rungs in in; motions 1 2 3 --rungs in; scan --rungs picture; "
    "picture scan --rungs; list --rungs --rungs scan; tidy in --rungs --rungs; tidy --rung in; --rungs; list --help; check in --version; list -h; "
    "check --a-long-word-that-looks-like-an-option-and-is-none in; "
    "table table table; table --rungs table; table --kind 4 table; table -o out -o out table; table table -o; table --table table table; --table; "
    "--table table; list --table table scan; draw in --table table; tidy --table table in; check --table table in; show in --table table; "
    "info --table table in; same in in --table table; scan picture --table table; picture --table table scan; motions 1 2 3 in --table; "
    "motions --table; motions --table table; motions 1 2 --table table; motions 1 2 3 in in --table table; motions 1 2 3 in --tabl table; "
    "motions 1 2 3 in --table table --table table; motions --table table 1 2 3 in --table table; motions 1 2 3 --table -; motions 1 2 3 - --table -; "
    "motions --table - 1 2 3 -; motions -o out --table - 1 2 3; motions 1 2 3 in --table table --rungs; motions 1 2 3 in --table table -o")


def row_statuses(run):
    put(run.folder, "bad", TIDY[:-1])
    put(run.folder, "other", files.encode(8, 3, 3, [(1, 1, 0, 9)]))
    cases = {DONE: [[*words, input_of(words)] for words in COMMANDS] + split("same in untidy; check in in; --help; -h; help; --version"),
             REFUSED: [[*words, "bad"] for words in COMMANDS] + split(
                 "check untidy; check in untidy in; same in other; show bad in; motions 5 1 1 in; motions x 1 1 in; list in; tidy scan; list picture; "
                 "scan scan; table in; table scan; motions 1 1 1 in --table bad; motions 1 1 1 none --table bad; motions 5 1 1 in --table table"),
             TROUBLE: [[*words, name] for words in COMMANDS for name in ("none", ".")] + WRONG + split(
                 "same in bad; same bad in; same in none; same none in; check none in; check untidy none; check none untidy; tidy in -o none/out; "
                 "tidy in -o .; motions 0.1 1 1234567890123456 in; motions 1 1 1 in --table none; motions 1 1 1 bad --table none; "
                 "motions 1 1 1 none --table table; motions 1 1 1 in --table .")}
    for status, some in cases.items():
        for words in some:
            got = run.start(words)
            run.hold(("status", words), got.status, status)
            run.hold(("standard error is silent", words), not got.said, status == DONE or words[:3] == ["same", "in", "other"])


def row_wrong_use(run):
    for words in WRONG:
        run.hold(("wrong use", words), run.start(words), wrong_use())
    run.hold("nothing is written", (get(run.folder, "out"), sorted(os.listdir(run.folder))), (OLD, sorted(["out", *READY])))


def row_help(run):
    texts = [run.start([word]) for word in ("--help", "-h", "help")]
    run.hold("help", [(bool(text.out), text.said, text.status) for text in texts], [(True, b"", DONE)] * 3)
    run.hold("one help", len(set(texts)), 1)
    for command in ("list", "draw", "tidy", "check", "show", "info", "same", "motions", "scan", "picture", "table"):
        run.hold(("help", command), f"\n  jobtool {command} ".encode() in texts[0].out, True)
    for word in (b"-o OUT", b"--kind", b"--rungs", b"--table", b"HALF_PITCH COLUMN_OFFSET ROW_OFFSET", b"standard input", b"0 done", b"1 refused",
                 b"2 trouble"):
        run.hold(("help", word), word in texts[0].out, True)
    with open("/dev/full", "wb") as out:
        run.hold("help that cannot be written", run.start(["--help"], stdout=out), trouble(b"standard output", "No space left on device"))


def row_version(run):
    version = run.start(["--version"])
    run.hold("version", (version.out.startswith(b"jobtool of Haruseopda "), version.out.count(b"\n"), version.said, version.status), (True, 1, b"", DONE))


def row_sentences(run):
    """Each by hand, as a planner would read it."""
    head, bad = files.head(8, 3, 3), files.encode(8, 3, 3, [(1, 1, 0, 9), (0, 1, 1, 4)])
    for words, data, number, place, sentence in (
            ("list", b"", 1, 0, "it is empty"),
            ("list", bytes([5, 3, 3]), 1, 0, "kind 5 is not 4 or 8"),
            ("list", bytes([8, 0, 250]), 2, 0, "width 0 and height 250: sides are 1 to 240"),
            ("list", bytes([8, 3, 3, 1, 2]), 4, 0, "the scan has 2 depths, 9 are needed"),
            ("list", b"\4", 2, 0, "width 0 and height 0: sides are 1 to 240"),
            ("list", TIDY, 1, 0, "this looks like a job file: jobtool draw makes a scan of one"),
            ("list", PICTURE, 1, 0, "this looks like a picture: jobtool scan makes a scan of one"),
            ("picture", PICTURE, 1, 0, "this looks like a picture: jobtool scan makes a scan of one"),
            ("picture", TIDY[:-1], 6, 20, "the file ends inside the field at byte 20"),
            ("tidy", b"", 6, 0, "it is empty"),
            ("tidy", SCAN, 7, 0, "this looks like a scan: jobtool list makes a job file of one"),
            ("tidy", PICTURE, 7, 0, "this looks like a picture: jobtool scan makes a scan of one"),
            ("show", files.encode(6, 3, 3, []), 1, 0, "kind 6 is not 4 or 8"),
            ("info", files.encode(4, 241, 3, []), 2, 0, "width 241 and height 3: sides are 1 to 240"),
            ("draw", head, 6, 6, "the file ends at byte 6 without an end field"),
            ("draw", TIDY[:-1], 6, 20, "the file ends inside the field at byte 20"),
            ("check", head + head, 7, 6, "the field at byte 6 has tag 1 and length 3, which is not allowed there"),
            ("check", b"\1\2\3" + TIDY, 7, 0, "the field at byte 0 has tag 1 and length 515, which is not allowed there"),
            ("check", bad, 8, 13, "plunge number 1 at byte 13: its ball leaves the plate"),
            ("info", files.encode(8, 3, 3, [(1, 1, 1, 0)]), 9, 6, "plunge number 0 at byte 6: its depth is 0"),
            ("show", TIDY[:-1] + b"\3", 10, 20, "the end field at byte 20 says 3 plunges, the file has 2"),
            ("tidy", TIDY + b"x", 11, 27, "the file goes on behind its end field, from byte 27 on"),
            ("check", UNTIDY, 12, 11, "not tidy: the tidied file is unlike this one from byte 11 on"),
            ("motions 5 1 1", TIDY, 13, 0, "the half pitch is not a number from 0.0625 to 4"),
            ("motions 1 -1 1", TIDY, 13, 0, "the column offset is not a number from 0 to 1000"),
            ("motions 1 1 1000.5", TIDY, 13, 0, "the row offset is not a number from 0 to 1000"),
            ("table", b"", 6, 0, "it is empty"),
            ("table", TIDY, 7, 0, "this looks like a job file, not a sink table"),
            ("table", b"\1\0\3", 7, 0, "this looks like a job file, not a sink table"),
            ("table", PICTURE, 7, 0, "this looks like a picture, not a sink table"),
            ("table", b"P5", 6, 0, "this looks like a picture, not a sink table"),
            ("table", SCAN, 7, 0, "this looks like a scan, not a sink table"),
            ("table", b"\4", 6, 0, "this looks like a scan, not a sink table"),
            ("table", b"\5\2", 6, 0, "a sink table has 515 bytes, this file has 2"),
            ("table", b"\5\2\0", 6, 0, "a sink table has 515 bytes, this file has 3"),
            ("table", TABLE[:-1], 6, 0, "a sink table has 515 bytes, this file has 514"),
            ("table", b"\0" + TABLE[1:], 7, 0, "the field has tag 0 and length 512, a sink table has 5 and 512"),
            ("table", b"\5\2\1" + TABLE[3:-1], 7, 0, "the field has tag 5 and length 513, a sink table has 5 and 512"),
            ("table", b"\xff\xff\xff", 7, 0, "the field has tag 255 and length 65535, a sink table has 5 and 512"),
            ("table", b"\1\0\4", 7, 0, "the field has tag 1 and length 4, a sink table has 5 and 512"),
            ("table", TABLE + b"\0", 11, 515, "the file goes on behind the sink table, from byte 515 on"),
            ("table", TABLE[:3] + b"\0\1" + TABLE[5:], 15, 3,
             "entry 0 at byte 3 is 1: entry 0 must be 0, each larger than the one before, none above 50000"),
            ("table", TABLE[:5] + b"\0\x09\0\4" + TABLE[9:], 15, 7,
             "entry 2 at byte 7 is 4: entry 0 must be 0, each larger than the one before, none above 50000"),
            ("table", TABLE[:5] + b"\xea\x60\0\5" + TABLE[9:], 15, 5,
             "entry 1 at byte 5 is 60000: entry 0 must be 0, each larger than the one before, none above 50000"),
            ("table", TABLE[:-2] + b"\xc3\x51", 15, 513,
             "entry 255 at byte 513 is 50001: entry 0 must be 0, each larger than the one before, none above 50000")):
        put(run.folder, "bad", data)
        want = Told(b"", f"refused {number} {place}\njobtool: bad: {sentence}\n".encode(), REFUSED)
        run.hold((words, sentence), run.start([*words.split(), "bad"]), want)
        run.hold((words, sentence, "told"), wanted(words.split(), data, b"bad"), want)
        run.hold((words, sentence, "standard input"), run.start(words.split(), data), want._replace(said=want.said.replace(b": bad: ", b": standard input: ")))
    run.hold("no picture", run.start(["scan", "scan"]), Told(b"", b"jobtool: scan: no PGM picture: it does not begin with P5\n", REFUSED))
    for words, line, status in ((["same", "in", "untidy"], b"same\n", DONE), (["same", "in", "cell"], b"column 1, row 1: depth 9 and 7\n", REFUSED),
                                (["same", "in", "size"], b"size 3 by 3 and 3 by 4\n", REFUSED), (["same", "in", "kind"], b"kind 8 and 4\n", REFUSED)):
        put(run.folder, "cell", files.encode(8, 3, 3, [(1, 1, 0, 7), (1, 1, 1, 4)]))
        put(run.folder, "size", files.encode(8, 3, 4, []))
        put(run.folder, "kind", files.encode(4, 9, 9, []))
        run.hold(words, run.start(words), Told(line, b"", status))


def row_table(run):
    """Accepted tables, printed; the first and the last line of the built-in one by hand."""
    rng = np.random.default_rng(5)
    run.clean()
    text = run.start(["table"], tables.encode(tables.BUILT_IN)).out.split(b"\n")
    run.hold("first lines", text[:2], [b"depth 0: 0 micrometres, 0 at reach 0", b"depth 1: 20 micrometres, 22 at reach 0"])
    run.hold("last line", text[255:], [b"depth 255: 6116 micrometres, 6727 at reach 0", b""])
    for table in (tables.BUILT_IN, tables.LEAST, tables.GREATEST, *(tables.some_table(rng) for _ in range(10))):
        run.pipe(["table"], tables.encode(table))
        run.name(["table"], tables.encode(table))


def bad_tables():
    """Fields of every refusal, with faults alone and together."""
    rng = np.random.default_rng(6)
    table = tables.some_table(rng)
    field = tables.encode(table)
    cut = [field[:length] for length in (0, 1, 2, 3, 4, 258, 513, 514)]
    opened = [field[:at] + bytes([byte]) + field[at + 1:] for at in range(3) for byte in (0, 1, 4, 5, 8, 80, 255)]
    broken = [tables.encode(one) for one in list(tables.entry_ends(table))[::97]]
    return [bad for bad in cut + opened + broken + [*tables.surplus(field), *tables.twice(rng, table, 30)] if tables.read(bad).number]


def row_table_refused(run):
    run.clean()
    for number, field in enumerate(bad_tables()):
        (run.name if number % 8 == 0 else run.pipe)(["table"], field)
    run.pipe(["table"], TABLE + bytes(LIMIT - len(TABLE)))


def behind(words, option):
    """The words with an option at each place behind the command, but not between another option and its value."""
    return [words[:at] + option + words[at:] for at in range(1, len(words) + 1) if words[at - 1] != "-o"]


def row_motions_by_table(run):
    """The option may stand anywhere behind the command; without it the built-in table is used."""
    want = wanted(BY_TABLE, TIDY, b"in")
    for order in behind([*MOTIONS, "in"], ["--table", "table"]):
        run.hold(order, run.start(order), want)
    for order in behind(MOTIONS, ["--table", "table"]):
        run.hold((order, "a job from standard input"), run.start(order, TIDY), want)
    for words in ([*MOTIONS, "in", "-o", "out"], ["motions", "-o", "out", *SCALE, "in"]):
        for order in behind(words, ["--table", "table"]):
            put(run.folder, "out", OLD)
            run.hold(order, (run.start(order), get(run.folder, "out")), (Told(b"", b"", DONE), want.out))
    put(run.folder, "built-in", tables.encode(tables.BUILT_IN))
    run.hold("the built-in table", run.start([*MOTIONS, "in", "--table", "built-in"]), wanted(MOTIONS, TIDY))
    run.hold("the table's file is replaced", (run.start([*BY_TABLE, "in", "-o", "table"]), get(run.folder, "table")), (Told(b"", b"", DONE), want.out))


def row_sinks_by_table(run):
    """By hand: the smallest sinks and the largest, and the tenth rounded down."""
    job = files.encode(8, 3, 3, [(1, 1, 1, 1), (1, 1, 1, 2), (1, 1, 1, 255), (1, 1, 0, 9), (1, 1, 0, 10), (1, 1, 0, 255)])
    for table, sinks in ((tables.LEAST, "0.001 0.002 0.255 0.009 0.011 0.28"), (tables.GREATEST, "49.746 49.747 50 54.729 54.73 55")):
        put(run.folder, "table", tables.encode(table))
        got = run.start([*BY_TABLE], job).out.decode().split("\n")
        run.hold(("sinks", sinks), [line for line in got if line.startswith("sink")], ["sink " + sink for sink in sinks.split()])
        run.hold(("all lines", sinks), run.start([*BY_TABLE], job), told.by_table(MOTIONS, b"table", tables.encode(table), job))


def row_table_from_standard_input(run):
    want = wanted(BY_TABLE, TIDY, b"in")
    for order in behind([*MOTIONS, "in"], ["--table", "-"]):
        run.hold(order, run.start(order, TABLE), want)
    run.hold("to a file", (run.start([*MOTIONS, "in", "-o", "out", "--table", "-"], TABLE), get(run.folder, "out")), (Told(b"", b"", DONE), want.out))
    run.hold("refused", run.start([*MOTIONS, "in", "--table", "-"], TABLE + b"\0"), told.table_refusal(None, TABLE + b"\0"))
    run.hold("nothing", run.start([*MOTIONS, "in", "--table", "-"], b""), told.table_refusal(None, b""))
    run.hold("too long", run.start([*MOTIONS, "in", "--table", "-"], bytes(LIMIT + 1)), trouble(None, f"longer than {LIMIT} bytes"))
    for words in ([*MOTIONS, "--table", "-"], [*MOTIONS, "-", "--table", "-"], ["motions", "--table", "-", *SCALE, "-", "-o", "out"]):
        for data in (TABLE, TIDY):
            run.hold((words, "both"), run.start(words, data), wrong_use())
    run.hold("out", get(run.folder, "out"), want.out)


def row_table_judged_first(run):
    """Before the job is read and before the output is opened; what is refused or cannot be read leaves the output as it was."""
    bad = TABLE[:-2] + b"\0\0"
    for name, data in (("bad", bad), ("badjob", TIDY[:-1]), ("long", TABLE + bytes(LIMIT))):
        put(run.folder, name, data)
    refused, missing = told.table_refusal(b"bad", bad), "No such file or directory"
    for words, want in ((["in", "--table", "bad"], refused), (["none", "--table", "bad"], refused), (["badjob", "--table", "bad"], refused),
                        (["in", "--table", "none"], trouble(b"none", missing)), (["lost", "--table", "none"], trouble(b"none", missing)),
                        (["badjob", "--table", "none"], trouble(b"none", missing)), (["in", "--table", "."], trouble(b".", "Is a directory")),
                        (["in", "--table", "long"], trouble(b"long", f"longer than {LIMIT} bytes")),
                        (["in", "--table", "in"], told.table_refusal(b"in", TIDY)), (["in", "--table", "scan"], told.table_refusal(b"scan", SCAN)),
                        (["badjob", "--table", "table"], wanted(BY_TABLE, TIDY[:-1], b"badjob")),
                        (["none", "--table", "table"], trouble(b"none", missing))):
        for output in ([], ["-o", "out"], ["-o", "new"]):
            run.hold((words, output), run.start([*MOTIONS, *words, *output]), want)
        run.hold((words, "files"), (get(run.folder, "out"), os.path.exists(run.path("new")), parts(run)), (OLD, False, []))
    run.hold("no output", run.start([*MOTIONS, "in", "--table", "bad", "-o", "none/out"]), refused)
    run.hold("no output", run.start([*BY_TABLE, "in", "-o", "none/out"]), trouble(b"none/out", missing))
    run.hold("a wrong scale", run.start(["motions", "5", "1", "1", "in", "--table", "bad"]), refused)
    run.hold("a job from standard input", run.start([*MOTIONS, "--table", "bad"], TIDY), refused)
    for field in bad_tables():
        put(run.folder, "bad", field)
        run.hold(("refused", field[:99]), run.start([*MOTIONS, "in", "--table", "bad", "-o", "out"]), told.table_refusal(b"bad", field))
    run.hold("out", get(run.folder, "out"), OLD)


def row_names_of_tables_escaped(run):
    for name in STRANGE:
        run.hold(("missing", name), run.start([*MOTIONS, "in", "--table", name]), trouble(name, "No such file or directory"))
        with open(os.path.join(os.fsencode(run.folder), name), "wb") as out:
            out.write(TABLE + b"\0")
        run.hold(("refused", name), run.start([*MOTIONS, "in", "--table", name]), told.table_refusal(name, TABLE + b"\0"))
        run.hold(("table", name), run.start(["table", name]), told.table_refusal(name, TABLE + b"\0"))
        os.remove(os.path.join(os.fsencode(run.folder), name))
    for name in (b"a" * 256, b"a" * 5000):
        run.hold(("a long name", len(name)), run.start([*MOTIONS, "in", "--table", name]), trouble(name, "File name too long"))


def hold_at_terminal(run, words, want):
    """A run with a terminal for standard input, at which nobody types."""
    try:
        ours, theirs = pty.openpty()
    except OSError:
        return skipped(f"{' '.join(words)} at a terminal", "none can be had here")
    run.hold((words, "at a terminal"), run.start(words, stdin=theirs, timeout=2), want)
    os.close(ours)
    os.close(theirs)


def row_forgotten_offset(run):
    for words in split("motions 0.5 10 in; motions 0.5 10 ./in; motions 0.5 10 none; motions -o out 0.5 10 in; motions 0.5 10 --table table in"):
        hold_at_terminal(run, words, wrong_use())
        run.hold((words, "with nothing to read"), run.start(words, stdin=subprocess.DEVNULL), wrong_use())
        with waiting(run, words) as ran:
            try:
                got = ran.wait(2)
            except subprocess.TimeoutExpired:
                got = "it waits"
        run.hold((words, "at once"), got, TROUBLE)
    run.hold("out", get(run.folder, "out"), OLD)


def row_endless_number(run):
    """A number is one, however many digits it has: no offset was forgotten."""
    for digits in (16, 40, 4096, 5000, 100000):
        run.hold(("digits", digits), run.start(["motions", "0.5", "10", "1" * digits], TIDY), Told(b"", told.DIGITS, TROUBLE))


def row_terminal(run):
    for words in COMMANDS:
        hold_at_terminal(run, words, wrong_use())
        hold_at_terminal(run, [*words, "-o", "out"], wrong_use())
        hold_at_terminal(run, [*words, input_of(words)], wanted(words, get(run.folder, input_of(words))))
    run.hold("out", get(run.folder, "out"), OLD)


def row_dash(run):
    for words in COMMANDS:
        data = get(run.folder, input_of(words))
        want = wanted(words, data)
        for more in ([], ["-"], ["-", "-o", "-"], ["-o", "-"], ["-o", "-", "-"]):
            run.hold((words, more), run.start([*words, *more], data), want)
        run.hold((words, "-o -"), run.start([*words, input_of(words), "-o", "-"]), want)
        run.hold((words, "- to a file"), (run.start([*words, "-", "-o", "out"], data), get(run.folder, "out")), (Told(b"", b"", DONE), want.out))
    run.hold("no file -", os.path.exists(run.path("-")), False)
    run.hold("check a -", run.start(["check", "in", "-", "untidy"], TIDY), told.several("check", [(b"in", TIDY), (None, TIDY), (b"untidy", UNTIDY)]))
    run.hold("same - a", run.start(["same", "-", "in"], UNTIDY), Told(b"same\n", b"", DONE))


STRANGE = [b"a b", b" ", b"a\nb", b"\t", b"\x1b[31mred", b"\x7f", b"back\\slash", b"\\n", "Prägung ×.job".encode(), "模具".encode(),
           b"\x01\x1f", b"%s%n", b"'\"$(x)", b"./-x", b"./-", b"./-o", b"--", b"-1", b"...", b"a" * 255, b"\x01" * 120]


def row_names_escaped(run):
    for name in STRANGE:
        run.hold(("missing", name), run.start(["tidy", name]), trouble(name, "No such file or directory"))
        run.hold(("no folder", name), run.start(["tidy", "in", "-o", name + b"/out"]), trouble(name + b"/out", "No such file or directory"))
        file = os.path.join(os.fsencode(run.folder), name)
        with open(file, "wb") as out:
            out.write(UNTIDY)
        run.hold(("refused", name), run.start(["check", name]), wanted(["check"], UNTIDY, name))
        run.hold(("several", name), run.start(["check", name, "in"]), told.several("check", [(name, UNTIDY), (b"in", TIDY)]))
        run.hold(("in place", name), run.start(["tidy", name, "-o", name]), Told(b"", b"", DONE))
        run.hold(("heading", name), run.start(["show", "in", name]), told.several("show", [(b"in", TIDY), (name, TIDY)]))
        run.hold(("no picture", name), run.start(["scan", name]).said, b"jobtool: " + told.shown_name(name) + b": no PGM picture: it does not begin with P5\n")
        os.remove(file)


def row_names_no_text(run):
    """A name that is no UTF-8 is refused, as input and as output, and a link that leads to one is left as it is."""
    why = "Invalid or incomplete multibyte or wide character"
    for name in (b"\xff\xfe", b"a\xffb", b"\xc3", b"\xed\xa0\x80"):
        put(run.folder, "there", UNTIDY)
        os.rename(os.path.join(os.fsencode(run.folder), b"there"), os.path.join(os.fsencode(run.folder), name))
        run.hold(("input", name), run.start(["tidy", name]), trouble(name, why))
        run.hold(("several", name), run.start(["check", "in", name]), Told(b"in: tidy\n", trouble(name, why).said, TROUBLE))
        run.hold(("output", name), run.start(["tidy", "in", "-o", name]), trouble(name, why))
        run.hold(("table", name), run.start([*MOTIONS, "in", "--table", name]), trouble(name, why))
        os.symlink(name, run.path("led"))
        run.hold(("a link", name), run.start(["tidy", "in", "-o", "led"]), trouble(b"led", why))
        run.hold(("a link", name, "stays"), os.readlink(os.fsencode(run.path("led"))), name)
        os.remove(run.path("led"))
        os.remove(os.path.join(os.fsencode(run.folder), name))


def row_long_names(run):
    deep = b"/".join([b"d" * 200] * 12)
    for name in (b"a" * 256, b"a" * 4097, b"\n\\" * 3000, b"a" * 100000):
        run.hold(("input", len(name)), run.start(["tidy", name]), trouble(name, "File name too long"))
        run.hold(("several", len(name)), run.start(["check", "in", name]), Told(b"in: tidy\n", trouble(name, "File name too long").said, TROUBLE))
        run.hold(("output", len(name)), run.start(["tidy", "in", "-o", name]), trouble(name, "File name too long"))
    os.makedirs(os.path.join(os.fsencode(run.folder), deep))
    run.hold("into a deep folder", run.start(["tidy", "untidy", "-o", deep + b"/out"]), Told(b"", b"", DONE))
    run.hold("from a deep folder", run.start(["check", deep + b"/out"]), Told(b"tidy\n", b"", DONE))
    run.hold("nothing is left", sorted(os.listdir(run.folder)), sorted(["out", *READY, "d" * 200]))


def row_names_shown_whole(run):
    """Names that the system takes are not cut in messages, however long their escapes are."""
    missing = "No such file or directory"
    for name, reason in ((b"a" * 4095, "File name too long"), (b"/".join([b"d" * 200] * 12), missing), (b"\x01" * 255, missing)):
        run.hold(("input", name[:9], len(name)), run.start(["tidy", name]), trouble(name, reason))
        run.hold(("output", name[:9], len(name)), run.start(["tidy", "in", "-o", name + b"/out"]), trouble(name + b"/out", reason))


def row_small_stack(run):
    """512 KiB, on the largest plate."""
    def small():
        resource.setrlimit(resource.RLIMIT_STACK, (512 * 1024, 512 * 1024))
    relief = np.random.default_rng(3).integers(0, 256, (240, 240)).astype(np.uint8)
    scan = bytes([8, 240, 240]) + relief.tobytes()
    put(run.folder, "scan", scan)
    put(run.folder, "in", wanted(["list"], scan).out)
    put(run.folder, "picture", told.picture_of(240, 240, relief.tobytes()))
    for words in COMMANDS:
        data = get(run.folder, input_of(words))
        run.hold((words, "a small stack"), run.start([*words, input_of(words)], preexec_fn=small), wanted(words, data))
        run.hold((words, "a small stack, -o"), run.start([*words, input_of(words), "-o", "out"], preexec_fn=small), Told(b"", b"", DONE))
    run.hold("same", run.start(["same", "in", "in"], preexec_fn=small), Told(b"same\n", b"", DONE))
    for words in (["--help"], ["--version"], ["check", "in", "in"]):
        run.hold((words, "a small stack"), run.start(words, preexec_fn=small).status, DONE)


# stands before the C library's own calls and notes their order
NOTING = r"""
#define _GNU_SOURCE
#include <dlfcn.h>
#include <stdio.h>
#include <sys/stat.h>
#include <unistd.h>
static void note(const char *what) { FILE *f = fopen("calls", "a"); if (f) { fprintf(f, "%s\n", what); fclose(f); } }
int fsync(int fd) { struct stat s; fstat(fd, &s); note(S_ISDIR(s.st_mode) ? "fsync folder" : "fsync file");
    return ((int (*)(int)) dlsym(RTLD_NEXT, "fsync"))(fd); }
int rename(const char *a, const char *b) { note("rename"); return ((int (*)(const char *, const char *)) dlsym(RTLD_NEXT, "rename"))(a, b); }
"""


def row_on_the_device_before_renamed(run):
    """The file is synchronised, then renamed, then its folder is synchronised."""
    with open(run.path("noting.c"), "w", encoding="ascii") as out:
        out.write(NOTING)
    if not shutil.which("cc") or subprocess.run(["cc", "-shared", "-fPIC", "-o", "noting.so", "noting.c", "-ldl"], cwd=run.folder, check=False).returncode:
        skipped("on_the_device_before_renamed", "no C compiler here")
        return
    how = {"env": dict(os.environ, LD_PRELOAD=run.path("noting.so"))}
    run.hold("an answer", run.start(["tidy", "untidy", "-o", "out"], **how), Told(b"", b"", DONE))
    run.hold("the order of calls", get(run.folder, "calls").split(b"\n")[:-1], [b"fsync file", b"rename", b"fsync folder"])
    os.remove(run.path("calls"))
    run.hold("a refusal", run.start(["tidy", "scan", "-o", "out"], **how).status, REFUSED)
    run.hold("no call at a refusal", os.path.exists(run.path("calls")), False)


def row_plunges(run):
    """The program of document 01: its status, and a reason where its output cannot be written."""
    def plunges(data, *words, **how):
        how = {"stdout": subprocess.PIPE, "stderr": subprocess.PIPE, "input": data, "timeout": 20, **how}
        return told_of(subprocess.run([PLUNGES, *words], check=False, **how))
    if not os.path.exists(PLUNGES):
        skipped("plunges", "target/programs/plunges is not built")
        return
    run.hold("a scan", plunges(SCAN), Told(b"plate 8 3 3\n0 1 1 9\n1 1 1 4\ntotal 2\n", b"", DONE))
    run.hold("no scan", plunges(b""), Told(b"refused 1 0\n", b"", REFUSED))
    run.hold("a word", (plunges(b"", "coin.scan").status, plunges(b"", "coin.scan").out), (TROUBLE, b""))
    with open("/dev/full", "wb") as out:
        run.hold("a full device", plunges(SCAN, stdout=out), Told(b"", b"plunges: standard output: No space left on device\n", TROUBLE))


ROWS = [row for name, row in list(globals().items()) if name.startswith("row_")]


def rows(run):
    """Gives the rows that do not hold."""
    broken = []
    for row in ROWS:
        before = run.differences
        ready(run)
        try:
            row(run)
        except OSError as error:
            run.hold((row.__name__, "went on to its end"), error, None)
        if run.differences > before:
            broken.append(row.__name__.removeprefix("row_"))
    run.clean()
    return broken


# ---- the stored run

def store():
    with open(os.path.join(told.TOP, "examples", "coin.scan"), "rb") as read:
        file = wanted(["list"], read.read()).out
    words = ["motions", *SCALE]
    return {"args": "\n".join([*words, "coin.job"]).encode() + b"\n", "data/coin.job": file, "stdout": wanted(words, file).out}


def compare(run, given):
    for name, data in {} if given.rows else store().items():
        run.hold(("stored", name), get(CRATE, name), data)
    for part in () if given.rows else (by_hand, limits, largest_plate):
        part(run)
    broken = rows(run)
    for index in range(0 if given.rows else given.scans):
        one_scan(run, np.random.default_rng([given.seed, index]), index)
    print(f"jobtool: {len(ROWS)} rows, that do not hold: {', '.join(broken) or 'none'}")
    print(f"jobtool: {0 if given.rows else given.scans} scans, {run.compared} comparisons, {run.differences} differences")
    sys.exit(1 if run.differences else 0)


def main():
    parser = argparse.ArgumentParser()
    parser.add_argument("--scans", type=int, default=300)
    parser.add_argument("--seed", type=int, default=1)
    parser.add_argument("--tell", type=int, default=20, help="how many differences are printed")
    parser.add_argument("--rows", action="store_true")
    parser.add_argument("--store", action="store_true")
    parser.add_argument("--check", action="store_true")
    given = parser.parse_args()
    if given.store:
        os.makedirs(os.path.join(CRATE, "data"), exist_ok=True)
        for name, data in store().items():
            put(CRATE, name, data)
    elif given.check:
        differing = [name for name, data in store().items() if get(CRATE, name) != data]
        print(f"jobtool: stored run by SciPy and exact fractions, differing: {', '.join(differing) or 'nothing'}")
        sys.exit(bool(differing))
    else:
        with tempfile.TemporaryDirectory() as folder:
            compare(Run(os.path.realpath(folder), given.tell), given)


if __name__ == "__main__":
    main()
