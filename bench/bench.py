"""Times the library beside OpenCV and SciPy making the same answers on the same plates. Started by bench/run.

Outputs are asserted equal first. Samples are taken in random order, equally many of each; a sample is as many calls as take some
milliseconds. Pointers are made ready before; what a call over ctypes costs counts for the library, as numpy's calls do for the peers.
Writes bench/RESULTS.md and bench/results.png. Ends with 1 if a thin relief takes longer than document 02, N3, allows.
"""
import argparse
import datetime
import functools
import os
import random
import statistics
import sys
import textwrap
import time

HERE = os.path.dirname(os.path.abspath(__file__))
sys.path.insert(0, os.path.join(HERE, "..", "conformance"))

import cv2
import matplotlib
import numpy as np
import scipy
from scipy import ndimage

import library
import peers
import scans

matplotlib.use("Agg")
import matplotlib.pyplot as plt

OURS = "library"
SHARED = os.path.join(HERE, "..", "target", "libharuseopda.so")
RUNG = 60
SIDE = 240
WANTED = {"listing": 3.0, "drawing": 2.0, "clearance map": 1.0}   # at least so many times as fast as OpenCV
NOISE = {"listing": 2.5, "drawing": 1.5, "clearance map": 1.0}    # the same for noise

# document 02, N3: "depth 1 in its first 13 columns and 0 elsewhere lists in at most a third of the time that depth 1 everywhere takes"
THIN, THIN_MOST = 13, 1 / 3
COLUMNS = (6, THIN, 25, 60)
MOTIF = "H8"        # a text in the middle of a bare plate
EVERYWHERE = "everywhere"


# what was tried and stays as it is, for the page
TRIED = ["A list past 32 KiB is climbed for twice, once to count it, so that an output that is too short stays untouched: all plates here but all",
         "depth 1, 13 columns and the text. Looked at: three bytes a plunge in the stage instead of seven would take 10,900 plunges, fewer than any",
         "of these lists has (16,600 to 95,600); rows of the work buffers that have become bare would take the rest for dome and cone, not for the",
         "texture and noise, most of whose plunges are found before the region has shrunk. The last plunges kept instead of the first would leave",
         "17 of 74 rungs to the second climb for the texture, 60 of 84 for the dome. A sweep of kind 8 loads nine vectors and compares sixteen times",
         "for 16 cells; columns first and then along them is as slow, two rows at a time was not tried.", ""]


# ---- plates

def plates(side):
    rng = np.random.default_rng(20080)
    y, x = np.abs(scans.distance_from_middle(side, side))
    rough = rng.integers(0, 256, (side, side)).astype(np.uint8)
    smooth = cv2.GaussianBlur(rough, (0, 0), 5).astype(float)
    return {
        "all depth 1": np.ones((side, side), np.uint8),
        "noise": rough,
        "dome": scans.make(rng, scans.dome, side, side),
        "cone": np.maximum(0, 255 - 255 * np.hypot(y, x) / (side / 2)).astype(np.uint8),
        columns_name(THIN): first_columns(THIN, side),
        "photo texture": np.clip(128 + (smooth - 128) * 12, 0, 255).astype(np.uint8),
        "stamp text": stamp(side),
    }


def first_columns(number, side):
    """Depth 1 in the first columns of a plate."""
    out = np.zeros((side, side), np.uint8)
    out[:, :number] = 1
    return out


def motif(side):
    """A short text of depth 100 in the middle of a bare plate."""
    out = np.zeros((side, side), np.uint8)
    cv2.putText(out, MOTIF, (side // 3, side * 13 // 24), cv2.FONT_HERSHEY_SIMPLEX, side / 160, 100, max(1, side // 48))
    return out


def cropped(relief):
    """A relief's own rectangle, outside of which it is 0."""
    rows, columns = np.flatnonzero(relief.any(1)), np.flatnonzero(relief.any(0))
    return np.ascontiguousarray(relief[rows[0]:rows[-1] + 1, columns[0]:columns[-1] + 1])


def stamp(side):
    out = np.zeros((side, side), np.uint8)
    for line in range(5):
        cv2.putText(out, "HARU 480", (4, (line + 1) * side // 5 - 8), cv2.FONT_HERSHEY_SIMPLEX, side / 160, 60 + 40 * line, max(1, side // 40))
    return out


def columns_name(number):
    return f"{number} columns"


def thins():
    """Reliefs that leave most of a plate bare, by name."""
    return {columns_name(n): first_columns(n, SIDE) for n in COLUMNS} | {MOTIF: motif(SIDE)}


def level_of(plate):
    """The level whose clearance is asked for: half depth where every cell has some."""
    return 128 if plate in ("noise", "photo texture") else 1


# ---- contestants: for each call a name and a function without arguments, whose answer is an array of bytes

class Ours:
    """The library's calls with everything made ready."""

    def __init__(self, calls, relief, kind):
        self.calls, self.kind = calls, kind
        self.relief = np.ascontiguousarray(relief)
        self.height, self.width = relief.shape
        self.works = [np.zeros(relief.size, np.uint8) for _ in range(3)]

    def ready(self, name, *parts, answer):
        """A call with its pointers and lengths; what it answers stands in `answer`."""
        arguments = []
        for part in parts:
            arguments += [part.ctypes.data, part.nbytes] if isinstance(part, np.ndarray) else [part]
        call = functools.partial(self.calls[name], *arguments)
        call.kept = parts        # the buffers live as long as the call that has their addresses
        assert call().number == 0
        return call, answer

    def map(self, name, *further, works=0):
        out = np.zeros(self.relief.size, np.uint8)
        return self.ready(name, self.relief, self.kind, self.width, self.height, *further, out, *self.works[:works], answer=out)

    def listing(self, length):
        out = np.zeros(length, np.uint8)
        return self.ready("haru_list", self.relief, self.kind, self.width, self.height, out, *self.works[:2], answer=out)

    def drawing(self, file):
        out = np.zeros(self.relief.size, np.uint8)
        return self.ready("haru_draw", file, out, answer=out)

    def tidying(self, file):
        out = np.zeros(len(file), np.uint8)
        return self.ready("haru_tidy", file, out, *self.works, answer=out)

    def check(self, file):
        return self.ready("haru_check", file, *self.works, answer=None)


def peer(function, *arguments):
    """A peer's call gives its answer back itself."""
    return functools.partial(function, *arguments), None


def cv_clearance(relief, kind, level, ring):
    """The same bytes: threshold into a ring of zeros, distances, back to bytes."""
    np.greater_equal(relief, level, out=ring[1:-1, 1:-1].view(bool))
    if kind == 4:
        return cv2.distanceTransform(ring, cv2.DIST_L1, 3, dstType=cv2.CV_8U)[1:-1, 1:-1]
    return cv2.distanceTransform(ring, cv2.DIST_C, 3)[1:-1, 1:-1].astype(np.uint8)


def cv_distance(ring, kind):
    """distanceTransform alone."""
    if kind == 4:
        return cv2.distanceTransform(ring, cv2.DIST_L1, 3, dstType=cv2.CV_8U)
    return cv2.distanceTransform(ring, cv2.DIST_C, 3)


def scipy_clearance(relief, kind, level, ring):
    np.greater_equal(relief, level, out=ring[1:-1, 1:-1].view(bool))
    return ndimage.distance_transform_cdt(ring, "taxicab" if kind == 4 else "chessboard")[1:-1, 1:-1].astype(np.uint8)


def cv_drawn_back(numbers, kind):
    """Drawing back by steps: from the largest number down, dilated by one step each."""
    kernel = peers.cross_or_square(kind)
    out = np.zeros(numbers.shape, np.uint8)
    for v in range(int(numbers.max()), 0, -1):
        np.maximum(out, numbers == v, out=out)
        if v > 1:
            cv2.dilate(out, kernel, dst=out, **peers.OFF_PLATE)
    return out


def cv_rung(relief, kind, number):
    return cv2.erode(relief, peers.cross_or_square(kind), iterations=number, **peers.OFF_PLATE)


def scipy_rung(relief, kind, number):
    if kind == 8:
        return ndimage.grey_erosion(relief, size=2 * number + 1, mode="constant", cval=0)
    for _ in range(number):
        relief = peers.eroded(relief, peers.ball(kind, 1))
    return relief


def contests(calls, name, relief, kind):
    """call: {contestant: (function, answer)}; the first contestant is ours, and all make the same bytes."""
    ours = Ours(calls, relief, kind)
    height, width = relief.shape
    found = {}
    if "haru_list" in calls:
        file = peers.cv_listing(relief, kind, "plate")
        found["listing"] = {
            OURS: ours.listing(len(file)),
            "OpenCV, whole plate": peer(peers.cv_listing, relief, kind, "plate"),
            "OpenCV, shrinking region": peer(peers.cv_listing, relief, kind, "ring"),
            "OpenCV, bounding box": peer(peers.cv_listing, relief, kind, "box"),
            "SciPy": peer(peers.scipy_listing, relief, kind),
        }
        found["drawing"] = {
            OURS: ours.drawing(file),
            "OpenCV, whole plate": peer(peers.cv_drawing, file, kind, width, height, "plate"),
            "OpenCV, growing region": peer(peers.cv_drawing, file, kind, width, height, "ring"),
            "SciPy": peer(peers.scipy_drawing, file, kind, width, height),
        }
    level = level_of(name)
    ring = np.zeros((height + 2, width + 2), np.uint8)
    found["clearance map"] = {
        OURS: ours.map("haru_clearance_map", level),
        "OpenCV": peer(cv_clearance, relief, kind, level, ring),
        "SciPy": peer(scipy_clearance, relief, kind, level, ring),
    }
    axis = peers.cv_axis(peers.cv_clearance(relief, kind, level), kind)
    found["drawing back"] = {
        OURS: Ours(calls, axis, kind).map("haru_reconstruct"),
        "OpenCV, by steps": peer(cv_drawn_back, axis, kind),
    }
    found[f"rung {RUNG}"] = {
        OURS: ours.map("haru_rung_map", RUNG, works=2),
        "OpenCV": peer(cv_rung, relief, kind, RUNG),
        "SciPy": peer(scipy_rung, relief, kind, RUNG),
    }
    for call, contestants in found.items():
        check_equal(call, contestants)
    # timed beside the clearance, though its answer is not the same: distances alone, as floats for kind 8, ring and shape made before
    found["clearance map"]["OpenCV, distances alone"] = peer(cv_distance, peers.ringed(relief, level), kind)
    return found


def check_equal(call, contestants):
    answers = {}
    for who, (function, answer) in contestants.items():
        given = function()
        answers[who] = (given if answer is None else answer).tobytes()
    for who, answer in answers.items():
        assert answer == answers[OURS], f"{call}: {who} differs"


# ---- timing

def measure(functions, samples, least):
    """For each function its samples, in seconds a call: equally many, in random order."""
    repeats = []
    for function in functions:
        number = 1
        while True:
            taken = timed(function, number)
            if taken >= least or number >= 1 << 14:
                break
            number = max(number + 1, min(16 * number, int(1.2 * number * least / max(taken, 1e-9))))
        repeats.append(number)
    order = [i for i in range(len(functions)) for _ in range(samples)]
    random.shuffle(order)
    taken = [[] for _ in functions]
    for i in order:
        taken[i].append(timed(functions[i], repeats[i]) / repeats[i])
    return taken


def timed(function, number):
    start = time.perf_counter()
    for _ in range(number):
        function()
    return time.perf_counter() - start


def race(contestants, samples, least):
    """{contestant: (least, median)} in microseconds."""
    taken = measure([function for function, _ in contestants.values()], samples, least)
    return {who: (min(t) * 1e6, statistics.median(t) * 1e6) for who, t in zip(contestants, taken)}


# ---- results

def wanted(call, plate):
    return (NOISE if plate == "noise" else WANTED)[call]


def short_of(results):
    """What falls short of what is wanted, against the fastest of OpenCV's ways."""
    lines = []
    for (call, plate, kind), times in results.items():
        if call in WANTED:
            who = min((w for w in times if w.startswith("OpenCV") and "alone" not in w), key=lambda w: times[w][0])
            ratio = times[who][0] / times[OURS][0]
            if ratio < wanted(call, plate):
                lines.append(f"{call}, {plate}, kind {kind}: {ratio:.2f} times as fast as {who}; wanted {wanted(call, plate)}")
    return lines


def slower(results):
    """Where a peer is faster in a call of which nothing particular is wanted."""
    return [f"{call}, {plate}, kind {kind}: the library takes {times[OURS][0] / times[who][0]:.1f} times as long as {who}"
            for (call, plate, kind), times in results.items() if call not in WANTED
            for who in times if times[who][0] < times[OURS][0]]


def machine():
    model = next((line.split(":")[1].strip() for line in open("/proc/cpuinfo") if line.startswith("model name")), "?")
    return [f"- {datetime.date.today().isoformat()}, {model}, {os.cpu_count()} cores, load at the start {os.getloadavg()[0]:.1f}",
            f"- OpenCV {cv2.__version__} with one thread, SciPy {scipy.__version__}, numpy {np.__version__}, Python {sys.version.split()[0]}"]


def table(results, call):
    rows = [(plate, kind, times) for (c, plate, kind), times in results.items() if c == call]
    others = [who for who in rows[0][2] if who != OURS]
    lines = [f"### {call}", "", "| Plate | Kind | Library, µs | " + " | ".join(others) + " |", "|---|---|---|" + "---|" * len(others)]
    for plate, kind, times in rows:
        cells = [f"{times[who][0]:,.0f} ({times[who][1]:,.0f}): **{times[who][0] / times[OURS][0]:.1f}**" for who in others]
        lines.append(f"| {plate} | {kind} | {times[OURS][0]:,.0f} ({times[OURS][1]:,.0f}) | " + " | ".join(cells) + " |")
    return lines + [""]


def side_table(sides):
    """sides: {(call, plate, kind): {side: (least, median)}}"""
    every = sorted(next(iter(sides.values())))
    lines = ["### Cost against the plate's side", "", "| Call | Plate | Kind | " + " | ".join(f"side {s}, µs" for s in every) + " |",
             "|---|---|---|" + "---|" * len(every)]
    for (call, plate, kind), times in sides.items():
        lines.append(f"| {call} | {plate} | {kind} | " + " | ".join(f"{times[s][0]:,.1f} ({times[s][1]:,.1f})" for s in every) + " |")
    return lines + [""]


def thin_table(thin):
    lines = ["| Call | Kind | Depth in | µs | of depth 1 everywhere | of its rectangle as a plate |", "|---|---|---|---|---|---|"]
    for (call, kind), times in thin.items():
        for name in thins():
            here, whole, alone = times[name, "plate"], times[EVERYWHERE, "plate"], times[name, "rectangle"]
            part = "" if name == MOTIF else f"**{here[0] / whole[0]:.3f}**"
            lines.append(f"| {call} | {kind} | {name} | {here[0]:,.1f} ({here[1]:,.1f}) | {part} | {here[0] / alone[0]:.2f} |")
    return lines + [""]


def too_slow(thin):
    """What of a thin relief takes more than N3 allows."""
    ratios = {kind: times[columns_name(THIN), "plate"][0] / times[EVERYWHERE, "plate"][0] for (call, kind), times in thin.items() if call == "listing"}
    return [f"listing, {THIN} columns, kind {kind}: {ratio:.3f} of the time of depth 1 everywhere; a third is allowed"
            for kind, ratio in ratios.items() if ratio > THIN_MOST]


def calls_of(results):
    return list(dict.fromkeys(call for call, _, _ in results))


def picture(results, path):
    calls = calls_of(results)
    figure, rows = plt.subplots(len(calls), 1, figsize=(13, 3 * len(calls)), squeeze=False)
    colours = {"OpenCV": "#1b6ca8", "OpenCV, whole plate": "#1b6ca8", "OpenCV, by steps": "#1b6ca8", "OpenCV, shrinking region": "#5aa9dd",
               "OpenCV, growing region": "#5aa9dd", "OpenCV, bounding box": "#a9d3ee", "OpenCV, distances alone": "#a9d3ee", "SciPy": "#e0953b"}
    for axes, call in zip(rows[:, 0], calls):
        groups = [(plate, kind, times) for (c, plate, kind), times in results.items() if c == call]
        others = [who for who in groups[0][2] if who != OURS]
        wide = 0.8 / len(others)
        for n, who in enumerate(others):
            ratios = [times[who][0] / times[OURS][0] for _, _, times in groups]
            places = np.arange(len(groups)) + (n - (len(others) - 1) / 2) * wide
            axes.bar(places, np.array(ratios) - 1, wide * 0.95, bottom=1, label=who, color=colours[who])
            for place, ratio in zip(places, ratios):
                axes.text(place, ratio * 1.05 if ratio > 1 else ratio / 1.05, f"{ratio:.1f}" if ratio < 10 else f"{ratio:.0f}", ha="center",
                          va="bottom" if ratio > 1 else "top", fontsize=6)
        axes.axhline(1, color="black", linewidth=1)
        if WANTED.get(call, 1) != 1:
            axes.axhline(WANTED[call], color="#b03030", linewidth=0.8, linestyle="--")
        axes.set_yscale("log")
        axes.set_ylim(bottom=min(0.7, axes.get_ylim()[0] / 1.4), top=axes.get_ylim()[1] * 3)
        axes.yaxis.set_major_formatter(lambda ratio, _: f"{ratio:g}")
        axes.set_xticks(range(len(groups)), [f"{plate}\nkind {kind}" for plate, kind, _ in groups], fontsize=7)
        axes.set_title(f"{call}: peer's time over the library's (above the line: the library is faster)", fontsize=10, loc="left")
        axes.legend(fontsize=7, ncol=4, loc="upper right", framealpha=0.9)
        axes.spines[["top", "right"]].set_visible(False)
        axes.margins(x=0.01)
    figure.tight_layout()
    figure.savefig(path, dpi=110)


def wrapped(lines):
    """Prose in lines of 120 columns, a paragraph or a point of a list at a time; all else as it is."""
    out, part = [], []

    def end():
        if part:
            out.extend(textwrap.wrap(" ".join(part), 120, subsequent_indent="  " if part[0].startswith("- ") else ""))
            part.clear()

    for line in lines:
        if not line or line.startswith(("#", "|", "!", "- ")):
            end()
        if not line or line.startswith(("#", "|", "!")):
            out.append(line)
        else:
            part.append(line)
    end()
    return out


def write(results, sides, thin, short, asked, head):
    lines = ["# Benchmark", "",
             "Written by `bench/run`. The library, as the proved archive gives it, beside OpenCV and SciPy making the same bytes on the same",
             f"plates of {SIDE} by {SIDE} cells.", "", *head,
             f"- {asked.samples} samples of each, at least {asked.least * 1000:g} ms each, in random order; answers asserted equal first", "",
             "Each cell: least time (median) in microseconds, then in bold the peer's least time over the library's: above 1 the library is faster.",
             "'OpenCV, distances alone' is `distanceTransform` without threshold, ring and bytes; it does less than the library's call.", "",
             "![ratios](results.png)", "", "## Falls short", ""]
    if asked.maps_only:
        lines += ["Listing and drawing were skipped.", ""]
    lines += [f"- {line}" for line in short] or ["Nothing of what was timed."]
    lines += ["", f"Wanted: listing at least {WANTED['listing']:g} times as fast as the fastest OpenCV loop on every plate and kind, of noise",
              f"{NOISE['listing']:g} times; drawing {WANTED['drawing']:g} times, of noise {NOISE['drawing']:g} times; clearance at least level.", ""]
    lines += TRIED
    behind = slower(results)
    if behind:
        lines += ["Slower than a peer in a call of which nothing is wanted (for rungs of kind 8 OpenCV joins all steps into one large square):", ""]
        lines += [f"- {line}" for line in behind] + [""]
    if thin:
        lines += ["## Thin reliefs", "",
                  f"Depth 1 in the first columns of a plate of {SIDE} by {SIDE} cells, or '{MOTIF}' in its middle, 0 elsewhere: the time (median), what",
                  "part that is of the time for depth 1 everywhere, and of the time for a plate that is just the rectangle with depth. `bench/run`",
                  f"fails if a listing of {THIN} columns takes more than a third of depth 1 everywhere (document 02, N3); `bench/run --thin` times",
                  "this table alone.", ""]
        lines += thin_table(thin)
    lines += ["## Times", ""]
    for call in calls_of(results):
        lines += table(results, call)
    lines += side_table(sides)
    with open(os.path.join(asked.out, "RESULTS.md"), "w") as out:
        out.write("\n".join(wrapped(lines)).rstrip() + "\n")
    picture(results, os.path.join(asked.out, "results.png"))


# ---- the run

def time_plates(calls, asked):
    """{(call, plate, kind): {contestant: times}}"""
    results = {}
    for plate, relief in plates(SIDE).items():
        for kind in (4, 8):
            for call, contestants in contests(calls, plate, relief, kind).items():
                if asked.quick:
                    contestants = {who: c for who, c in contestants.items() if who != "SciPy"}
                times = results[call, plate, kind] = race(contestants, asked.samples, asked.least)
                print(f"{call}, {plate}, kind {kind}: " + ", ".join(f"{who} {t[0]:,.0f}" for who, t in times.items()), flush=True)
    return results


def time_sides(calls, asked):
    """{(call, plate, kind): {side: times}}, of the library alone"""
    sides = {}
    for side in (60, 120, 240):
        for plate in ("all depth 1", "noise"):
            for kind in (4, 8):
                ours = Ours(calls, plates(side)[plate], kind)
                ready = {"clearance map": ours.map("haru_clearance_map", level_of(plate)),
                         "rung of a quarter of the side": ours.map("haru_rung_map", side // 4, works=2)}
                if "haru_list" in calls:
                    ready["listing"] = ours.listing(len(peers.cv_listing(ours.relief, kind, "ring")))
                for call, times in race(ready, asked.samples, asked.least).items():
                    sides.setdefault((call, plate, kind), {})[side] = times
    return sides


def time_thin(calls, asked):
    """{(call, kind): {(relief, on the plate or on its own rectangle): times}}, of the library alone"""
    thin = {}
    for kind in (4, 8) if "haru_list" in calls else ():
        ready = {}
        reliefs = {(EVERYWHERE, "plate"): first_columns(SIDE, SIDE)}
        for name, relief in thins().items():
            reliefs |= {(name, "plate"): relief, (name, "rectangle"): cropped(relief)}
        for which, relief in reliefs.items():
            file = peers.cv_listing(relief, kind, "box")
            ours = Ours(calls, relief, kind)
            contestants = {"listing": (ours.listing(len(file)), file), "drawing": (ours.drawing(file), relief),
                           "tidying": (ours.tidying(file), file), "check": (ours.check(file), None)}
            for call, ((function, answer), right) in contestants.items():
                assert right is None or answer.tobytes() == right.tobytes(), f"{call}: {which} differs"
                ready.setdefault(call, {})[which] = (function, answer)
        for call, contestants in ready.items():
            thin[call, kind] = race(contestants, 2 * asked.samples, asked.least)
    return thin


def fails(thin):
    """The status of a run: 1 if a thin relief takes longer than it may."""
    slow = too_slow(thin)
    print("".join(f"\nFAILS: {line}" for line in slow), end="\n" if slow else "")
    return 1 if slow else 0


def main():
    asked = argparse.ArgumentParser(description="Times the library beside OpenCV and SciPy.")
    asked.add_argument("--samples", type=int, default=25)
    asked.add_argument("--least", type=float, default=0.002, help="seconds that a sample takes at least")
    asked.add_argument("--quick", action="store_true", help="three samples of each, and no SciPy")
    part = asked.add_mutually_exclusive_group()
    part.add_argument("--maps-only", action="store_true", help="no listing and drawing")
    part.add_argument("--thin", action="store_true", help="the table of thin reliefs alone; nothing is written")
    asked.add_argument("--library", default=SHARED)
    asked.add_argument("--out", default=HERE, help="where RESULTS.md and results.png go")
    asked = asked.parse_args()
    if asked.quick:
        asked.samples = 3
    calls = library.load(asked.library)
    missing = [name for name in ("haru_list", "haru_draw") if name not in calls]
    if missing and not asked.maps_only:
        print("the library lacks", ", ".join(missing), "(--maps-only times the map calls alone)")
        return 1
    if asked.maps_only:
        calls = {name: call for name, call in calls.items() if name in library.MAP_CALLS}
    if asked.thin:
        thin = time_thin(calls, asked)
        print("\n".join(thin_table(thin)))
        return fails(thin)
    head = machine()
    results, sides, thin = time_plates(calls, asked), time_sides(calls, asked), time_thin(calls, asked)
    short = short_of(results)
    write(results, sides, thin, short + too_slow(thin), asked, head)
    print("\nfalls short:" + ("".join(f"\n  {line}" for line in short) or " nothing"))
    return fails(thin)


if __name__ == "__main__":
    sys.exit(main())
