"""Scans to compare on, from a seeded generator: noise, plateaus with ties, combs, checkerboards, domes, cones, stamps and the rest."""
import cv2
import numpy as np


def noise(rng, h, w):
    return rng.integers(0, 256, (h, w))


def few_depths(rng, h, w):
    """Noise with many ties."""
    return rng.choice(rng.integers(0, 256, rng.integers(2, 5)), (h, w))


def plateaus(rng, h, w):
    side = int(rng.integers(2, 6))
    small = rng.integers(0, rng.choice([3, 6, 256]), (-(-h // side), -(-w // side)))
    return np.kron(small, np.ones((side, side), int))[:h, :w]


def rectangles(rng, h, w):
    out = np.full((h, w), rng.integers(0, 4))
    for _ in range(rng.integers(1, 9)):
        y, x = rng.integers(h), rng.integers(w)
        out[y:y + rng.integers(1, h + 1), x:x + rng.integers(1, w + 1)] = rng.integers(0, rng.choice([4, 256]))
    return out


def comb(rng, h, w):
    y, x = np.mgrid[:h, :w]
    period, low, high = int(rng.integers(2, 6)), rng.integers(0, 256), rng.integers(0, 256)
    return np.where((x if rng.random() < 0.5 else y) % period == 0, low, high)


def checkerboard(rng, h, w):
    y, x = np.mgrid[:h, :w]
    side = int(rng.integers(1, 5))
    return np.where((x // side + y // side) % 2, rng.integers(0, 256), rng.integers(0, 256))


def distance_from_middle(h, w):
    y, x = np.mgrid[:h, :w]
    return y - (h - 1) / 2, x - (w - 1) / 2


def dome(rng, h, w):
    y, x = distance_from_middle(h, w)
    return 255 * np.sqrt(np.maximum(0, 1 - (2 * y / (h + 1)) ** 2 - (2 * x / (w + 1)) ** 2))


def cone(rng, h, w):
    """Round, stepped-diamond or square."""
    y, x = np.abs(distance_from_middle(h, w))
    away = [np.hypot(y, x), y + x, np.maximum(y, x)][rng.integers(3)]
    return np.maximum(0, 255 - away * rng.uniform(1, 60))


def ramp(rng, h, w):
    y, x = np.mgrid[:h, :w]
    return (x * rng.integers(-20, 21) + y * rng.integers(-20, 21)) % 256 if rng.random() < 0.5 else np.clip(x * 9 + y * 5, 0, 255)


def stamp(rng, h, w):
    """Letters, as on a leather stamp."""
    out = np.full((h, w), rng.choice([0, 0, 3]), np.uint8)
    scale = max(0.25, min(h, w) / rng.uniform(15, 60))
    for line in range(1 + int(h / (30 * scale))):
        text = "".join(rng.choice(list("HARU4880&"), 12))
        cv2.putText(out, text, (int(rng.integers(-3, 3)), int((line + 1) * 28 * scale)), cv2.FONT_HERSHEY_SIMPLEX, scale,
                    int(rng.integers(1, 256)), max(1, int(2 * scale)))
    return out


def texture(rng, h, w):
    """Like a photograph: smoothed noise."""
    rough = rng.integers(0, 256, (h + 8, w + 8)).astype(np.uint8)
    smooth = cv2.GaussianBlur(rough, (0, 0), max(0.5, min(h, w) / rng.uniform(12, 60)))[4:-4, 4:-4].astype(float)
    return np.clip(128 + (smooth - 128) * rng.uniform(2, 12), 0, 255)


def balls(rng, h, w):
    """Balls of both kinds upon one another."""
    y, x = np.mgrid[:h, :w]
    out = np.zeros((h, w), int)
    for _ in range(rng.integers(1, 12)):
        dy, dx = abs(y - rng.integers(h)), abs(x - rng.integers(w))
        away = dy + dx if rng.random() < 0.5 else np.maximum(dy, dx)
        out = np.maximum(out, np.where(away <= rng.integers(0, max(h, w) // 2 + 1), rng.integers(1, 256), 0))
    return out


def frames(rng, h, w):
    """Thin frames, one within another."""
    y, x = np.mgrid[:h, :w]
    ring = np.minimum(np.minimum(y, h - 1 - y), np.minimum(x, w - 1 - x))
    return np.where(ring % rng.integers(1, 5) == 0, rng.integers(0, 256), rng.integers(0, 3))


def spikes(rng, h, w):
    """Few deep cells on bare ground."""
    out = np.zeros((h, w), int)
    for _ in range(rng.integers(1, 5)):
        out[rng.integers(h), rng.integers(w)] = rng.integers(1, 256)
    return out


def holes(rng, h, w):
    """Few bare or shallow cells in a full plate."""
    out = np.full((h, w), rng.choice([1, 7, 255]))
    for _ in range(rng.integers(1, 5)):
        out[rng.integers(h), rng.integers(w)] = rng.integers(0, out.max() + 1)
    return out


def first_columns(rng, h, w):
    out = np.zeros((h, w), int)
    out[:, :rng.integers(1, w + 1)] = rng.integers(1, 256)
    return out


def all_bare(rng, h, w):
    return np.zeros((h, w))


def all_full(rng, h, w):
    return np.full((h, w), 255)


def all_one(rng, h, w):
    return np.full((h, w), rng.choice([1, 1, 170, 254]))


FAMILIES = [noise, few_depths, plateaus, rectangles, comb, checkerboard, dome, cone, ramp, stamp, texture, balls, frames, spikes, holes,
            first_columns, all_bare, all_full, all_one]


def make(rng, family, h, w):
    return np.ascontiguousarray(np.asarray(family(rng, h, w)).astype(np.uint8))


def small_sides(rng, index):
    """Height and width up to 20; of ten plates one is a row or a column of up to 240 cells, or a single cell."""
    if index % 10 == 9:
        long = int(rng.integers(1, 21) if rng.random() < 0.7 else rng.integers(21, 241))
        return (1, long) if rng.random() < 0.5 else (long, 1)
    return int(rng.integers(1, 21)), int(rng.integers(1, 21))


def middle_sides(rng, index):
    return int(rng.integers(2, 111)), int(rng.integers(21, 111))


# height, width
LARGE = [(240, 240), (239, 240), (240, 240), (240, 239), (240, 240), (2, 240), (240, 240), (240, 1), (239, 239), (120, 240)]


def large_sides(rng, index):
    return LARGE[index % len(LARGE)]


def scan(rng, index, sides):
    family = FAMILIES[index % len(FAMILIES)]
    h, w = sides(rng, index)
    return family.__name__, make(rng, family, h, w)
