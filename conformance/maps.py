"""Comparisons of the map calls: clearance, axis, drawing back, rungs, residues, scores, volume; and their refusals."""
import numpy as np

import peers
from guard import Blank, Free
from judge import ANY

SCORE_CALLS = ("haru_largest_residue_map", "haru_residue_sum_map")
DONE = (0, 0, 0)


def longer(rng):
    """How many bytes a buffer has too many: mostly none, so that its last byte stands at the guard page."""
    return int(rng.integers(1, 12)) if rng.random() < 0.2 else 0


class Plate:
    """A scan as the calls want it."""

    def __init__(self, relief, kind):
        self.relief, self.kind = relief, kind
        self.height, self.width = relief.shape
        self.cells = relief.size
        # small plates: each rung from the relief itself, by the whole ball; others step by step
        self.by_balls = relief.size <= 400 or min(relief.shape) <= 2

    def given(self, rng):
        """Relief, kind, width, height; the relief may be followed by bytes that do not matter."""
        return [self.relief.tobytes() + rng.bytes(longer(rng)), self.kind, self.width, self.height]

    def blank(self, rng):
        return Blank(self.cells + longer(rng))


def compare_scan(judge, rng, plate, full):
    """Everything a map call can say about one scan. full: every rung; else a few of them."""
    climb = peers.rungs(plate.relief, plate.kind, plate.by_balls)
    remains = peers.residues(climb, plate.kind)
    compare_rungs(judge, rng, plate, climb, remains, full)
    compare_scores(judge, rng, plate, remains)
    compare_levels(judge, rng, plate, full)
    compare_drawing_back(judge, rng, plate)
    judge.call("volume", "haru_volume", [plate.given(rng)[0], plate.width, plate.height], (0, int(plate.relief.sum(dtype=int)), 0))
    return climb, remains


def compare_rungs(judge, rng, plate, climb, remains, full):
    bare = bytes(plate.cells)
    numbers = set(range(1, len(climb) + 1)) | {peers.LAST_RUNG, int(rng.integers(1, 121))}
    if not full:
        numbers = set(rng.choice(sorted(numbers), min(len(numbers), 12), replace=False)) | {1, min(len(climb), 120), 120}
    how = "by balls" if plate.by_balls else "by steps"
    cv_climb = peers.cv_rungs(plate.relief, plate.kind)
    cv_remains = peers.cv_residues(cv_climb, plate.kind)
    free = [Free(plate.cells), Free(plate.cells)]
    for number in sorted(int(n) for n in numbers if n <= peers.LAST_RUNG):
        for name, word, made, cv_made in (("haru_rung_map", "rung", climb, cv_climb),
                                          ("haru_residue_map", "residue", [None] + remains, [None] + cv_remains)):
            want, cv_want = (m[number].tobytes() if number < len(m) else bare for m in (made, cv_made))
            got = judge.call(f"{word}, SciPy {how}", name, plate.given(rng) + [number] + [plate.blank(rng) for _ in range(3)], DONE, [want, *free])
            judge.same(f"{word}, OpenCV by steps", got, [cv_want, *free])
    if plate.by_balls and rng.random() < 0.005:
        # rungs past the first empty one by their whole balls too
        number = int(rng.integers(100, 121))
        want = peers.eroded(plate.relief, peers.ball(plate.kind, number)).tobytes()
        judge.call("rung 100 to 120, SciPy by balls", "haru_rung_map", plate.given(rng) + [number] + [Blank(plate.cells)] * 3, DONE,
                   [want, Free(plate.cells), Free(plate.cells)])


def compare_scores(judge, rng, plate, remains):
    every = np.stack(remains).astype(int) if remains else np.zeros((1, *plate.relief.shape), int)
    for name, label, score in zip(SCORE_CALLS, ("largest-residue score", "sum score"), (every.max(axis=0), every.sum(axis=0))):
        judge.call(label, name, plate.given(rng) + [plate.blank(rng) for _ in range(3)], DONE,
                   [score.astype(np.uint8).tobytes(), Free(plate.cells), Free(plate.cells)])


def levels_to_try(rng, plate, full):
    depths = np.unique(plate.relief[plate.relief > 0])
    chosen = rng.choice(depths, min(len(depths), 4 if full else 2), replace=False) if len(depths) else []
    return sorted({1, 255, int(rng.integers(1, 256)), *(int(d) for d in chosen)})


def compare_levels(judge, rng, plate, full):
    for level in levels_to_try(rng, plate, full):
        clear = peers.clearance(plate.relief, plate.kind, level)
        cv_clear = peers.cv_clearance(plate.relief, plate.kind, level)
        got = judge.call("clearance map, SciPy", "haru_clearance_map", plate.given(rng) + [level, plate.blank(rng)], DONE, [clear.tobytes()])
        judge.same("clearance map, OpenCV", got, [cv_clear.tobytes()])
        got = judge.call("axis map, SciPy", "haru_axis_map", plate.given(rng) + [level, plate.blank(rng)], DONE,
                         [peers.axis(clear, plate.kind).tobytes()])
        judge.same("axis map, OpenCV", got, [peers.cv_axis(cv_clear, plate.kind).tobytes()])
        for column, row in cells_to_try(rng, plate):
            judge.call("clearance of one cell", "haru_clearance", plate.given(rng) + [level, column, row], (0, int(clear[row, column]), 0))


def cells_to_try(rng, plate):
    w, h = plate.width, plate.height
    cells = {(0, 0), (w - 1, 0), (0, h - 1), (w - 1, h - 1), (w // 2, h // 2)}
    return cells | {(int(rng.integers(w)), int(rng.integers(h))) for _ in range(5)}


def maps_to_draw_back(rng, plate):
    """Any byte map: the scan itself, one divided down, an axis map, and a few numbers on bare ground."""
    few = np.zeros(plate.relief.shape, np.uint8)
    for _ in range(rng.integers(1, 6)):
        few[rng.integers(plate.height), rng.integers(plate.width)] = rng.integers(1, 256) if rng.random() < 0.3 else rng.integers(1, 12)
    level = int(rng.integers(1, 256))
    return [plate.relief, plate.relief // int(rng.integers(2, 100)), peers.axis(peers.clearance(plate.relief, plate.kind, level), plate.kind), few]


def compare_drawing_back(judge, rng, plate):
    for numbers in maps_to_draw_back(rng, plate):
        given = [numbers.tobytes() + rng.bytes(longer(rng)), plate.kind, plate.width, plate.height]
        wanted = peers.drawn_back(numbers, plate.kind).tobytes()
        got = judge.call("drawing back, SciPy", "haru_reconstruct", given + [plate.blank(rng)], DONE, [wanted])
        if plate.cells <= 400:
            judge.same("drawing back, SciPy by pairs", got, [peers.drawn_back_by_pairs(numbers, plate.kind).tobytes()])
        judge.same("drawing back, OpenCV", got, [peers.cv_drawn_back(numbers, plate.kind).tobytes()])


# ---- refusals of arguments

# the arguments of each call, in their order; what ends in _len is a buffer of width * height bytes
ARGUMENTS = {
    "haru_clearance": ("relief_len", "kind", "width", "height", "level", "column", "row"),
    "haru_clearance_map": ("relief_len", "kind", "width", "height", "level", "out_len"),
    "haru_axis_map": ("relief_len", "kind", "width", "height", "level", "out_len"),
    "haru_reconstruct": ("relief_len", "kind", "width", "height", "out_len"),
    "haru_rung_map": ("relief_len", "kind", "width", "height", "number", "out_len", "a_len", "b_len"),
    "haru_residue_map": ("relief_len", "kind", "width", "height", "number", "out_len", "a_len", "b_len"),
    "haru_largest_residue_map": ("relief_len", "kind", "width", "height", "out_len", "a_len", "b_len"),
    "haru_residue_sum_map": ("relief_len", "kind", "width", "height", "out_len", "a_len", "b_len"),
    "haru_volume": ("relief_len", "width", "height"),
}


def wrapped(*accepted):
    """Numbers of 32 bits that would be accepted if they were cut to 8, 16 or 31 bits; and -1, as a C int has it."""
    return tuple(more + number for number in accepted for more in (1 << 8, 1 << 16, 1 << 31, 0xFFFF_FF00, 0xFFFF_0000)) + (-1,)


BAD_SIDES = (0, 241, 242, 255, 256, 257, 496, 32768, 65535) + wrapped(3, 240)
BAD = {
    "kind": (0, 1, 3, 5, 6, 7, 9, 12, 132, 136, 255) + wrapped(4, 8),
    "width": BAD_SIDES,
    "height": BAD_SIDES,
    "level": (0, 256) + wrapped(1, 255),
    "number": (0, 121, 122, 255, 256, 257, 376, 65535) + wrapped(1, 120),
}
PLATES = ((3, 3), (1, 1), (5, 2), (1, 240), (240, 240))


def good(name, width, height):
    """Arguments that are accepted."""
    values = {"kind": 8, "width": width, "height": height, "level": 1, "number": 1, "column": 0, "row": 0}
    return {key: values.get(key, width * height) for key in ARGUMENTS[name]}


def bad_values(key, width, height):
    """Values of one argument that are refused."""
    if key.endswith("_len"):
        return sorted({0, width * height // 2, width * height - 1})
    if key in ("column", "row"):
        side = width if key == "column" else height
        return sorted({side, side + 1, 240, 255, 256, 65535, *wrapped(0, side - 1)} - set(range(side)))
    return BAD[key]


def refusal(values):
    """The number for these arguments, or 0: 1, then 2, then 3, then 4."""
    width, height = values["width"], values["height"]
    if values.get("kind", 4) not in (4, 8):
        return 1
    if not (1 <= width <= 240 and 1 <= height <= 240):
        return 2
    if not 1 <= values.get("level", 1) <= 255 or not 1 <= values.get("number", 1) <= 120:
        return 3
    if not 0 <= values.get("column", 0) < width or not 0 <= values.get("row", 0) < height:
        return 3
    if any(value < width * height for key, value in values.items() if key.endswith("_len")):
        return 4
    return 0


def try_arguments(judge, label, name, values):
    number = refusal(values)
    parts, buffers = [], []
    for key, value in values.items():
        if key == "relief_len":
            parts.append(bytes([5]) * value)
        elif key.endswith("_len"):
            parts.append(Blank(value))
            buffers.append(b"" if number else Free(values["width"] * values["height"]))
        else:
            parts.append(value)
    judge.tell(("arguments", values))
    judge.call(label, name, parts, (number, 0 if number else ANY, 0), buffers)


def compare_arguments(judge, rng, calls, many):
    """Each fault alone, every two faults at once, buffers longer than the claimed plate, and any mix."""
    for name in calls:
        for width, height in PLATES:
            base = good(name, width, height)
            faults = [(key, value) for key in base for value in bad_values(key, width, height)]
            for fault in faults:
                try_arguments(judge, "one fault in the arguments", name, {**base, **dict([fault])})
            pairs = [(f, g) for i, f in enumerate(faults) for g in faults[i + 1:] if f[0] != g[0]]
            for index in rng.permutation(len(pairs))[:many]:
                try_arguments(judge, "two faults in the arguments", name, {**base, **dict(pairs[index])})
        # a plate too large, in buffers that would hold it
        for width, height in ((241, 3), (3, 241), (241, 241), (256, 1), (257, 257)):
            try_arguments(judge, "side of 241 or more, buffers long enough", name, good(name, width, height))
        for _ in range(many):
            width, height = PLATES[rng.integers(4)]
            values = good(name, width, height)
            for key in values:
                choices = list(bad_values(key, width, height)) if rng.random() < 0.3 else [values[key], values[key] + (key.endswith("_len"))]
                values[key] = int(choices[rng.integers(len(choices))])
            try_arguments(judge, "any mix of arguments", name, values)
