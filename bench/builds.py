#!/usr/bin/python3
"""bench/builds.py BEFORE.so AFTER.so: times two builds of the library, call by call, in one run.

For each plate, kind and call both builds must answer the same bytes. Samples are taken in random order, equally many of each; what is
printed is the ratio of the least times, after over before, for each call its largest and its median. Ends with 1 if a call is slower than
the limit (--limit, 1.05) on the median of its plates, or answers differ.
"""
import argparse
import os
import random
import statistics
import sys
import time

import numpy as np

sys.path.insert(0, os.path.join(os.path.dirname(os.path.abspath(__file__)), "..", "conformance"))

import bench
import library

CALLS = ("listing", "tidying", "check", "drawing", "reading", "clearance map", "axis map", "drawing back", "rung 60", "residue 2", "sums",
         "volume")


def contestants(calls, relief, kind, level, file, numbers):
    """Each call with everything made ready, by name: the call, and where its answer stands."""
    ours = bench.Ours(calls, relief, kind)
    back = bench.Ours(calls, numbers, kind)
    size = relief.shape[::-1]
    return {
        "listing": ours.listing(len(file)),
        "tidying": ours.tidying(file),
        "check": ours.check(file),
        "drawing": ours.drawing(file),
        "reading": ours.ready("haru_read", file, answer=None),
        "clearance map": ours.map("haru_clearance_map", level),
        "axis map": ours.map("haru_axis_map", level),
        "drawing back": back.map("haru_reconstruct"),
        "rung 60": ours.map("haru_rung_map", 60, works=2),
        "residue 2": ours.map("haru_residue_map", 2, works=2),
        "sums": ours.map("haru_residue_sum_map", works=2),
        "volume": ours.ready("haru_volume", ours.relief, *size, answer=None),
    }


def made(calls, relief, kind, level):
    """The file of a relief and its clearance map, which other calls take."""
    ours = bench.Ours(calls, relief, kind)
    room = np.zeros(1 << 20, np.uint8)
    answer = calls["haru_list"](ours.relief.ctypes.data, relief.size, kind, ours.width, ours.height, room.ctypes.data, room.nbytes,
                                ours.works[0].ctypes.data, relief.size, ours.works[1].ctypes.data, relief.size)
    assert answer.number == 0
    call, out = ours.map("haru_clearance_map", level)
    call()
    return room[:answer.bytes].copy(), out.reshape(relief.shape).copy()


def least(call, seconds):
    """The least time of one call, over as many as take some milliseconds."""
    begun = time.perf_counter()
    call()
    once = max(time.perf_counter() - begun, 1e-7)
    times = max(1, int(seconds / once))
    begun = time.perf_counter()
    for _ in range(times):
        call()
    return (time.perf_counter() - begun) / times


def ratios(before, after, samples, rng):
    out = {}
    for name in CALLS:
        pair = {"before": before[name], "after": after[name]}
        for call, _ in pair.values():
            call()
        if pair["before"][1] is not None and not np.array_equal(pair["before"][1], pair["after"][1]):
            sys.exit(f"builds: {name} answers other bytes")
        order = [which for which in pair for _ in range(samples)]
        rng.shuffle(order)
        times = {"before": [], "after": []}
        for which in order:
            times[which].append(least(pair[which][0], 0.004))
        out[name] = min(times["after"]) / min(times["before"])
    return out


def main():
    parser = argparse.ArgumentParser(description=__doc__.split("\n")[0])
    parser.add_argument("before")
    parser.add_argument("after")
    parser.add_argument("--samples", type=int, default=15)
    parser.add_argument("--limit", type=float, default=1.05)
    given = parser.parse_args()
    builds = [library.load(given.before), library.load(given.after)]
    rng = random.Random(20080)
    found = {name: [] for name in CALLS}
    for plate, relief in bench.plates(bench.SIDE).items():
        for kind in (4, 8):
            level = bench.level_of(plate)
            file, numbers = made(builds[0], relief, kind, level)
            pair = [contestants(calls, relief, kind, level, file, numbers) for calls in builds]
            for name, ratio in ratios(*pair, given.samples, rng).items():
                found[name].append((ratio, f"{plate}, kind {kind}"))
    slow = 0
    print(f"{'call':15} {'median':>7} {'largest':>8}")
    for name, rows in found.items():
        middle, (most, where) = statistics.median(r for r, _ in rows), max(rows)
        slow |= middle > given.limit
        print(f"{name:15} {middle:7.3f} {most:8.3f}  {where}{'  SLOWER' if middle > given.limit else ''}")
    sys.exit(slow)


if __name__ == "__main__":
    main()
