"""Job files, made from docs/CANONICAL.md alone: a writer, a reader that names the first fault, and ways to damage a file."""
from typing import NamedTuple

LARGEST_SIDE = 240
STRANGE_BYTES = (0, 1, 2, 3, 4, 5, 8, 17, 18, 119, 120, 127, 128, 170, 239, 240, 241, 254, 255)
STRANGE_FIELDS = [bytes.fromhex(text) for text in (
    "00 00 00", "01 00 03 08 03 03", "01 00 03 04 f0 f0", "01 00 00", "02 00 00", "02 00 03 00 00 00", "02 00 05 00 00 00 01 00",
    "02 04 00 00 00 00 01", "02 01 04 00 00 00 01", "03 00 00", "03 00 03 00 00 00", "03 00 04 00 00 00 00", "03 00 05 00 00 00 00 00",
    "04 00 04 00 00 00 01", "05 02 00", "11 00 05 08 00 03 00 03", "12 00 07 00 00 00 00 00 00 01", "ff ff ff", "02 00 04 00 00 00 01",
    "02 00 04 00 00 00 00", "02 00 04 00 00 ff ff", "02 00 04 ff ff 00 01")]


# ---- writing and reading

def head(kind, width, height):
    return bytes([1, 0, 3, kind, width, height])


def plunge(column, row, reach, depth):
    return bytes([2, 0, 4, column, row, reach, depth])


def end(number):
    return bytes([3, 0, 4]) + number.to_bytes(4, "big")


def encode(kind, width, height, plunges):
    return head(kind, width, height) + b"".join(plunge(*(int(n) for n in p)) for p in plunges) + end(len(plunges))


class Reading(NamedTuple):
    number: int       # 0, or the refusal
    place: int        # of the refusal
    kind: int = 0
    width: int = 0
    height: int = 0
    plunges: tuple = ()


def leaves(width, height, column, row, reach):
    """Whether the ball leaves the plate: for either kind it goes `reach` cells to each of the four sides."""
    return column < reach or row < reach or column + reach >= width or row + reach >= height


def read(file):
    at, plate, plunges = 0, None, []
    while True:
        if len(file) - at < 3:
            return Reading(6, at)
        tag, length = file[at], file[at + 1] * 256 + file[at + 2]
        if (tag, length) not in ([(1, 3)] if plate is None else [(2, 4), (3, 4)]):
            return Reading(7, at)
        content = file[at + 3:at + 3 + length]
        if len(content) < length:
            return Reading(6, at)
        if tag == 1:
            kind, width, height = plate = tuple(content)
            if kind not in (4, 8):
                return Reading(1, at)
            if not (1 <= width <= LARGEST_SIDE and 1 <= height <= LARGEST_SIDE):
                return Reading(2, at)
        elif tag == 2:
            column, row, reach, depth = content
            if leaves(width, height, column, row, reach):
                return Reading(8, at)
            if depth == 0:
                return Reading(9, at)
            plunges.append((column, row, reach, depth))
        else:
            if int.from_bytes(content, "big") != len(plunges):
                return Reading(10, at)
            if len(file) > at + 3 + length:
                return Reading(11, at + 3 + length)
            return Reading(0, 0, *plate, tuple(plunges))
        at += 3 + length


def split(file):
    """The fields of a readable file."""
    return [file[:6]] + [file[at:at + 7] for at in range(6, len(file), 7)]


# ---- lists of plunges

def some_plunge(rng, width, height):
    column, row = int(rng.integers(width)), int(rng.integers(height))
    widest = min(column, row, width - 1 - column, height - 1 - row)
    return column, row, int(rng.integers(widest + 1)), int(rng.integers(1, 256 if rng.random() < 0.5 else 4))


def some_list(rng, width, height, number):
    """Plunges that fit the plate: random, some repeated, some inside others, in any order."""
    plunges = [some_plunge(rng, width, height) for _ in range(number)]
    for column, row, reach, depth in list(plunges):
        chance = rng.random()
        if chance < 0.15:
            plunges.append((column, row, reach, depth))
        elif chance < 0.3:
            plunges.append((column, row, int(rng.integers(reach + 1)), int(rng.integers(1, depth + 1))))
    return [plunges[i] for i in rng.permutation(len(plunges))]


# ---- damage: each of these gives files, most of them not readable

def cuts(file):
    return (file[:length] for length in range(len(file)))


def alterations(file, values):
    """Each byte put to each value, and one up, one down, and with each bit turned."""
    for at, byte in enumerate(file):
        turned = {byte ^ (1 << bit) for bit in range(8)}
        for value in sorted((set(values) | turned | {(byte + 1) % 256, (byte - 1) % 256}) - {byte}):
            yield file[:at] + bytes([value]) + file[at + 1:]


def moves(file):
    """Fields swapped, dropped, repeated, and strange ones put in."""
    parts = split(file)
    for i in range(len(parts)):
        yield b"".join(parts[:i] + parts[i + 1:])
        for j in range(len(parts)):
            yield b"".join(parts[:j] + [parts[i]] + parts[j:])
            if i < j:
                swapped = list(parts)
                swapped[i], swapped[j] = parts[j], parts[i]
                yield b"".join(swapped)
    for i in range(len(parts) + 1):
        for strange in STRANGE_FIELDS:
            yield b"".join(parts[:i] + [strange] + parts[i:])


def ends(file):
    """Other end numbers, and bytes after the end field."""
    body, number = file[:-7], int.from_bytes(file[-4:], "big")
    others = {0, 1, number + 1, number - 1, number ^ 0x8000_0000, 0xFFFF_FFFF, 0x7FFF_FFFF, *(number + (1 << b) for b in range(32))}
    for other in sorted(n for n in others if 0 <= n < 1 << 32):
        yield body + end(other)
        yield body + end(other) + b"\0"
    for surplus in (b"\0", b"\x03", b"\xff", b"\x02\0\0", b"\x03\0\4\0\0\0\0", file, plunge(0, 0, 0, 1), bytes(300)):
        yield file + surplus


def reaches(file):
    """Each plunge with each reach from 120 on, with depth and without."""
    for at in range(6, len(file) - 7, 7):
        for reach in range(120, 256):
            yield file[:at + 5] + bytes([reach]) + file[at + 6:]
        yield file[:at + 5] + b"\xc8\0" + file[at + 7:]


def twice(rng, file, number):
    """Two faults at once: two bytes altered, or one altered and the file cut, or lengthened, or a field put in."""
    for _ in range(number):
        bad = bytearray(file)
        for at in rng.integers(len(bad), size=2):
            bad[at] = rng.choice(STRANGE_BYTES) if rng.random() < 0.7 else rng.integers(256)
        way = rng.integers(5)
        if way == 0:
            bad = bad[:rng.integers(len(bad) + 1)]
        elif way == 1:
            bad += bytes([rng.choice(STRANGE_BYTES)])
        elif way == 2:
            parts = split(bytes(bad))
            parts.insert(rng.integers(len(parts) + 1), STRANGE_FIELDS[rng.integers(len(STRANGE_FIELDS))])
            bad = b"".join(parts)
        yield bytes(bad)


def typed(rng, number):
    """Files as from a keyboard: fields of the right tags with contents of any bytes, a few of them readable."""
    for _ in range(number):
        width, height = (int(n) for n in rng.integers(1, 8 if rng.random() < 0.8 else 241, size=2))
        kind = int(rng.choice([4, 8, 8, 4, 6])) if rng.random() < 0.3 else int(rng.choice([4, 8]))
        file = head(kind, width, height)
        many = int(rng.integers(5))
        for _ in range(many):
            column, row, reach, depth = some_plunge(rng, width, height)
            chance = rng.random()
            if chance < 0.2:
                reach = int(rng.integers(256))
            elif chance < 0.3:
                column = int(rng.integers(256))
            elif chance < 0.4:
                row = int(rng.integers(256))
            elif chance < 0.45:
                depth = 0
            file += plunge(column, row, reach, depth)
        yield file + end(many if rng.random() < 0.9 else int(rng.integers(6)))
