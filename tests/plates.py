"""Plates for the makers of test cases: distance, balls, neighbours and erosions, each as document 01 says it.

A plate is width, height and its numbers row after row; off the plate the depth is 0.
"""
LARGEST_SIDE = 240
LARGEST_REACH = 119
LAST_EROSION = 120
# Plates of at most so many cells are computed by a second, slower way too.
SMALL = 100


# ---- cells

def distance(kind, x, y, u, v):
    across, down = abs(x - u), abs(y - v)
    return across + down if kind == 4 else max(across, down)


def ball(kind, x, y, reach):
    return [(u, v) for v in range(y - reach, y + reach + 1) for u in range(x - reach, x + reach + 1)
            if distance(kind, x, y, u, v) <= reach]


def neighbours(kind):
    """The steps from a cell to each of its neighbours."""
    return [step for step in ball(kind, 0, 0, 1) if step != (0, 0)]


def each_cell(w, h):
    return ((x, y) for y in range(h) for x in range(w))


def on_plate(w, h, x, y):
    return 0 <= x < w and 0 <= y < h


def ball_on_plate(w, h, x, y, reach):
    """Either kind's ball holds the four cells straight left, right, up and down, and leaves the plate where one of them does."""
    return all(on_plate(w, h, x + reach * dx, y + reach * dy) for dx, dy in ((1, 0), (-1, 0), (0, 1), (0, -1)))


def depth(plate, w, h, x, y):
    return plate[y * w + x] if on_plate(w, h, x, y) else 0


# ---- arguments

def known_kind(kind):
    return kind in (4, 8)


def sides_fit(w, h):
    return 1 <= w <= LARGEST_SIDE and 1 <= h <= LARGEST_SIDE


# ---- erosions

def eroded_by_balls(kind, w, h, plate, k):
    """Erosion k (document 01: rung k) as the lowest depth over every cell of the ball, cells off the plate included."""
    # no cell is further than this from the plate's outside, where the depth is 0
    if k > max(w, h):
        return bytes(w * h)
    return bytes(min(depth(plate, w, h, u, v) for u, v in ball(kind, x, y, k)) for x, y in each_cell(w, h))


def over_windows(best, kind, w, h, plate):
    """The best number of each cell's window, which is the cell and its neighbours, with a ring of zeros about the plate."""
    plate = bytes(plate)
    if not any(plate):
        return plate
    wide = w + 2
    ringed = bytes(wide) + b"".join(b"\0" + plate[y * w:y * w + w] + b"\0" for y in range(h)) + bytes(wide)
    out = []
    for y in range(h):
        at = (y + 1) * wide + 1
        out += map(best, *(ringed[at + dy * wide + dx:at + dy * wide + dx + w] for dx, dy in ball(kind, 0, 0, 1)))
    return bytes(out)


def eroded(kind, w, h, plate):
    """The erosion after this one: the lowest of each window."""
    return over_windows(min, kind, w, h, plate)


def highest_near(kind, w, h, plate):
    return over_windows(max, kind, w, h, plate)
