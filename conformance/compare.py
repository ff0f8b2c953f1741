"""Compares the library with SciPy's ndimage, OpenCV and exact arithmetic, byte for byte. Started by conformance/run.

    conformance/run                the full run
    conformance/run --quick        about a tenth of it
    conformance/run --maps-only    the map calls alone
    conformance/run --only small:17 --seed 1    one case again

Every buffer of every call ends at a guard page (guard.py). Each case has random numbers of its own, from the seed, its section and
its number. The table at the end counts what was compared; the first difference is printed in full and the exit status is then 1.
"""
import argparse
import concurrent.futures
import ctypes
import faulthandler
import mmap
import multiprocessing
import os
import signal
import sys
import time

import cv2
import numpy as np
import scipy

import blocks
import files
import jobs
import library
import maps
import peers
import port
import scans
import tables
from guard import Blank, Desk, Free, Region
from judge import Judge
from maps import Plate

HERE = os.path.dirname(os.path.abspath(__file__))
SHARED = os.path.join(HERE, "..", "target", "libharuseopda.so")


# ---- sections: each makes case number `index`

def some_blocks(judge, index, rng, all_calls):
    blocks.compare_peers()
    blocks.compare_maps(judge)
    if all_calls:
        blocks.compare_jobs(judge)


def one_scan(sides):
    def section(judge, index, rng, all_calls):
        family, relief = scans.scan(rng, index, sides)
        for kind in (4, 8):
            plate = Plate(relief, kind)
            judge.tell(("scan", f"{family}, kind {kind}, {plate.width} wide, {plate.height} high"), ("depths", relief.tobytes()))
            judge.add("scans (a relief and a kind)")
            # each eighth scan a second time, with a guard page before each buffer
            for front in (False, True) if index % 8 == 7 else (False,):
                judge.desk.front = front
                climb, remains = maps.compare_scan(judge, rng, plate, full=relief.size <= 400 or index % 4 == 0)
                if all_calls:
                    compare_list_of(judge, rng, index, plate, climb, remains)
            judge.desk.front = False
    return section


def compare_list_of(judge, rng, index, plate, climb, remains):
    """The scan's list; and, of each tenth scan, that list in other orders, with repeats, with plunges inside others."""
    file = jobs.compare_listing(judge, rng, plate, climb, remains)
    relief = plate.relief.tobytes()
    got = judge.call("drawing of a listing", "haru_draw", [file, plate.blank(rng)], (0, 0, 0), [relief])
    judge.same("drawing of a listing, OpenCV",
               got, [peers.cv_drawing(np.frombuffer(file, np.uint8), plate.kind, plate.width, plate.height, "ring").tobytes()])
    if index % 10 == 0:
        for varied in jobs.variations(rng, plate, file):
            jobs.compare_file(judge, rng, varied)


def arguments(judge, index, rng, all_calls):
    name = list(maps.ARGUMENTS)[index % len(maps.ARGUMENTS)]
    maps.compare_arguments(judge, rng, [name], many=400)


def list_arguments(judge, index, rng, all_calls):
    jobs.compare_listing_arguments(judge, rng, many=200)


def lists(judge, index, rng, all_calls):
    """Random lists: drawn, tidied, checked."""
    height, width = (scans.small_sides if index % 20 else scans.middle_sides)(rng, index)
    kind = int(rng.choice([4, 8]))
    plunges = files.some_list(rng, width, height, int(rng.integers(0, 30)))
    jobs.compare_file(judge, rng, files.encode(kind, width, height, plunges))


def damaged(judge, index, rng, all_calls):
    """One file, damaged in every way; number 0 is the worked example."""
    if index == 0:
        file = bytes.fromhex(blocks.WORKED)
        everything = files.alterations(file, range(256))
    else:
        width, height = int(rng.integers(1, 9)), int(rng.integers(1, 9))
        file = files.encode(int(rng.choice([4, 8])), width, height, files.some_list(rng, width, height, int(rng.integers(0, 5))))
        everything = files.alterations(file, files.STRANGE_BYTES if len(file) < 28 else files.STRANGE_BYTES[::4])
    damages = [[file], files.cuts(file), everything, files.moves(file), files.ends(file), files.twice(rng, file, 150), files.typed(rng, 60)]
    if index % 5 == 0:
        damages.append(files.reaches(file))
    for files_of_one_sort in damages:
        for bad in files_of_one_sort:
            judge.add("files damaged or typed")
            jobs.compare_file(judge, rng, bad)


def edges(judge, index, rng, all_calls):
    """Balls that just fit and just do not, for every reach, on plates of all sizes; only read."""
    side, other = [(1, 1), (2, 3), (119, 240), (120, 239), (121, 121), (238, 240), (239, 239), (240, 240)][index % 8]
    for reach in range(256):
        for column in {0, reach, reach - 1, reach + 1, side - 1 - reach, side - reach, side - 2 - reach, side - 1, 255}:
            if 0 <= column <= 255:
                file = files.encode(8, side, other, [(column, other // 2, reach, 1)])
                turned = files.encode(4, other, side, [(other // 2, column, reach, 1)])
                for one in (file, turned):
                    judge.tell(("file", one))
                    reading = files.read(one)
                    wanted = (reading.number, 0, 0, 0, reading.place, 0) if reading.number else (0, *reading[2:5], 0, 1)
                    judge.call("reading, balls at the edge", "haru_read", [one], wanted)


def long_files(judge, index, rng, all_calls):
    """70,000 plunges and more: there is no limit but the four-byte end number."""
    number = 70000 + index
    one = files.some_plunge(rng, 9, 7)
    file = files.head(8, 9, 7) + files.plunge(*one) * (number - 1) + files.plunge(0, 0, 0, 255) + files.end(number)
    for bad in (file, file[:-1], file + b"\0", file[:-4] + b"\0\0\x11\x70", file[:-14] + files.plunge(8, 6, 1, 1) + files.end(number)):
        jobs.compare_file(judge, rng, bad)


def press_motions(judge, index, rng, all_calls):
    jobs.compare_scales(judge, rng, many=1500)


def sink_tables(judge, index, rng, all_calls):
    """One table; the first are the built-in one, the least and the greatest. Each fourth with a guard page before each buffer."""
    first = [tables.BUILT_IN, tables.LEAST, tables.GREATEST]
    judge.desk.front = index % 4 == 3
    jobs.compare_tables(judge, rng, first[index] if index < len(first) else tables.some_table(rng))
    judge.desk.front = False


def table_motions(judge, index, rng, all_calls):
    judge.desk.front = index % 4 == 3
    jobs.compare_tables_of_motions(judge, rng, many=1000)
    judge.desk.front = False


def port_statuses(judge, index, rng, all_calls):
    """Each 16th status."""
    for status in range(index % 16, 256, 16):
        port.compare_status(judge, rng, status)


def port_runs(judge, index, rng, all_calls):
    """Number 0 goes on until the count has stopped."""
    if index == 0:
        port.compare_fresh(judge)
    port.compare_runs(judge, rng, many=2000)


def port_traces(judge, index, rng, all_calls):
    """Number 0 goes on until the count has stopped. Each fourth with a guard page before each buffer."""
    judge.desk.front = index % 4 == 3
    if index == 0:
        port.compare_every_byte(judge, rng)
    port.compare_traces(judge, rng, many=10)
    if index == 0:
        port.compare_long_traces(judge, rng)
    judge.desk.front = False


def threads(judge, index, rng, all_calls):
    """Calls from several threads at once, each with buffers of its own: each answer as if it were alone."""
    def many_times(plate, desk):
        given = [plate.relief.tobytes(), plate.kind, plate.width, plate.height] + [Blank(plate.cells)] * 3
        return [desk.call(judge.calls["haru_residue_sum_map"], given) for _ in range(40)]

    plates = [Plate(scans.scan(rng, index * 4 + n, scans.middle_sides)[1], int(rng.choice([4, 8]))) for n in range(4)]
    with concurrent.futures.ThreadPoolExecutor(len(plates)) as pool:
        running = [pool.submit(many_times, plate, Desk(1 << 15, 4)) for plate in plates]
    for plate, made in zip(plates, running):
        remains = peers.cv_residues(peers.cv_rungs(plate.relief, plate.kind), plate.kind)
        wanted = np.sum(remains, axis=0, dtype=int, initial=0).astype(np.uint8) if remains else np.zeros_like(plate.relief)
        judge.tell(("scan", f"kind {plate.kind}, {plate.width} wide, {plate.height} high"), ("depths", plate.relief.tobytes()))
        for outcome in made.result():
            judge.same("sum score, from several threads", outcome, [wanted.tobytes(), Free(plate.cells), Free(plate.cells)])


# name: (what makes a case, cases in the full run, cases in the quick run, whether it needs the job calls)
SECTIONS = {
    "blocks": (some_blocks, 1, 1, False),
    "small": (one_scan(scans.small_sides), 10000, 950, False),
    "middle": (one_scan(scans.middle_sides), 380, 38, False),
    "large": (one_scan(scans.large_sides), 95, 10, False),
    "arguments": (arguments, 27, 9, False),
    "threads": (threads, 10, 2, False),
    "list-arguments": (list_arguments, 40, 4, True),
    "lists": (lists, 3000, 300, True),
    "damaged": (damaged, 110, 10, True),
    "edges": (edges, 8, 8, True),
    "long": (long_files, 2, 1, True),
    "motions": (press_motions, 16, 2, True),
    "tables": (sink_tables, 16, 4, True),
    "table-motions": (table_motions, 8, 1, True),
    "port": (port_statuses, 16, 16, True),
    "port-runs": (port_runs, 40, 4, True),
    "port-traces": (port_traces, 40, 4, True),
}


# ---- running them

def run_case(judge, section, index, all_calls):
    make = SECTIONS[section][0]
    rng = judge.start(section, index, list(SECTIONS).index(section))
    make(judge, index, rng, all_calls)


def work(path, seed, cases, all_calls, note, pipe):
    """One process's share."""
    judge = Judge(library.load(path), seed, note)
    for section, index in cases:
        run_case(judge, section, index, all_calls)
    pipe.send((judge.counts, judge.extra, judge.first))
    pipe.close()


def guard_holds():
    """Whether touching the byte behind a buffer, and the one before it, is a crash: tried in a process of its own each."""
    for front, touch in ((False, 10), (True, -1)):
        child = os.fork()
        if child == 0:
            faulthandler.disable()
            os.dup2(os.open(os.devnull, os.O_WRONLY), 2)
            ctypes.string_at(Region(4096).hold(Blank(10), front) + touch, 1)
            os._exit(0)
        status = os.waitpid(child, 0)[1]
        if not (os.WIFSIGNALED(status) and os.WTERMSIG(status) in (signal.SIGSEGV, signal.SIGBUS)):
            return False
    return True


def main():
    asked = argparse.ArgumentParser(description="Compares the library with SciPy and OpenCV.")
    asked.add_argument("--quick", action="store_true", help="about a tenth of the full run")
    asked.add_argument("--seed", type=int, default=20080)
    asked.add_argument("--only", action="append", metavar="SECTION[:CASE]", help="only this section, or this case of it")
    asked.add_argument("--maps-only", action="store_true", help="only the map calls")
    asked.add_argument("--require-all", action=argparse.BooleanOptionalAction, default=True, help="fail if a call of the header is missing (default)")
    asked.add_argument("--jobs", type=int, default=os.cpu_count(), help="processes")
    asked.add_argument("--library", default=SHARED, help="the shared object")
    asked = asked.parse_args()

    present = library.load(asked.library)
    missing_maps = [name for name in library.MAP_CALLS if name not in present]
    missing_jobs = [name for name in library.JOB_CALLS if name not in present]
    if missing_maps or (missing_jobs and asked.require_all and not asked.maps_only):
        print("the library lacks", ", ".join(missing_maps + missing_jobs), "(--maps-only compares the map calls alone)")
        return 1
    all_calls = not missing_jobs and not asked.maps_only
    if not guard_holds():
        print("the guard pages do not guard")
        return 1

    cases = []
    for section, (_, full, quick, needs_jobs) in SECTIONS.items():
        if all_calls or not needs_jobs:
            cases += [(section, index) for index in range(quick if asked.quick else full)]
    if asked.only:
        wanted = [(o.split(":")[0], o.split(":")[1:]) for o in asked.only]
        cases = [(s, i) for s, i in cases if (s, []) in wanted] + [(s, int(i[0])) for s, i in wanted if i]

    print(f"seed {asked.seed}; SciPy {scipy.__version__}, OpenCV {cv2.__version__}, numpy {np.__version__}")
    started = time.time()
    counts, extra, first, crashed = share_out(asked, cases, all_calls)
    differences = table(counts, extra, time.time() - started)
    if not all_calls:
        print("SKIPPED: job files, motions and the port" + (f" (missing: {', '.join(missing_jobs)})" if missing_jobs else ""))
    for line in crashed:
        print(line)
    if first:
        print("\nthe first difference:\n" + first)
    return 1 if differences or crashed else 0


def share_out(asked, cases, all_calls):
    """Every process takes each so-many-th case; a crash of one is told with the call that it was making."""
    processes = []
    context = multiprocessing.get_context("fork")
    for number in range(max(1, asked.jobs)):
        note = mmap.mmap(-1, mmap.PAGESIZE)      # shared with the process, so that it can be read after a crash
        receive, send = context.Pipe(duplex=False)
        process = context.Process(target=work, args=(asked.library, asked.seed, cases[number::max(1, asked.jobs)], all_calls, note, send))
        process.start()
        send.close()
        processes.append((process, receive, note))
    counts, extra, first, crashed = {}, {}, None, []
    for process, receive, note in processes:
        try:
            part, more, difference = receive.recv()
        except EOFError:
            process.join()
            crashed.append(f"CRASH (exit code {process.exitcode}) in: {note[:201].rstrip(bytes(1)).decode()}, seed {asked.seed}")
            continue
        process.join()
        for label, (times, differences) in part.items():
            tally = counts.setdefault(label, [0, 0])
            tally[0] += times
            tally[1] += differences
        for label, number in more.items():
            extra[label] = extra.get(label, 0) + number
        first = first or difference
    return counts, extra, first, crashed


def table(counts, extra, seconds):
    print(f"\n{'comparison':<62} {'compared':>10} {'differences':>12}")
    for label in sorted(counts):
        print(f"{label:<62} {counts[label][0]:>10,} {counts[label][1]:>12,}")
    differences = sum(d for _, d in counts.values())
    print(f"{'all':<62} {sum(n for n, _ in counts.values()):>10,} {differences:>12,}\n")
    for label in sorted(extra):
        print(f"{label}: {extra[label]:,}")
    print(f"{seconds:.0f} seconds")
    return differences


if __name__ == "__main__":
    faulthandler.enable()
    sys.exit(main())
