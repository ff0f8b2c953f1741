"""Plunge files for the makers of test cases, field by field as document 01 has them: written, and read as the table of refusals says."""
from plates import LARGEST_REACH, ball_on_plate, known_kind, sides_fit

# Document 01's worked example.
EXAMPLE = bytes.fromhex("010003080303 02000401010009 02000401010104 03000400000002")


class Refused(Exception):
    """A refusal: its number and its place."""


def field(tag, *content, size=None):
    return bytes([tag]) + (len(content) if size is None else size).to_bytes(2, "big") + bytes(content)


def end_of(n):
    return field(3, *n.to_bytes(4, "big"))


def file_of(kind, w, h, plunges):
    return field(1, kind, w, h) + b"".join(field(2, *p) for p in plunges) + end_of(len(plunges))


def read(data):
    """Kind, width, height and plunges of a readable file."""
    at, plate, plunges = 0, None, []
    while True:
        if len(data) - at < 3:
            raise Refused(6, at)
        opening = (data[at], data[at + 1] * 256 + data[at + 2])
        if opening not in (((1, 3),) if plate is None else ((2, 4), (3, 4))):
            raise Refused(7, at)
        content = data[at + 3:at + 3 + opening[1]]
        if len(content) < opening[1]:
            raise Refused(6, at)
        after = at + 3 + len(content)
        if opening[0] == 1:
            plate = tuple(content)
            if not known_kind(plate[0]):
                raise Refused(1, at)
            if not sides_fit(*plate[1:]):
                raise Refused(2, at)
        elif opening[0] == 2:
            x, y, reach, depth = content
            if not ball_on_plate(plate[1], plate[2], x, y, reach):
                raise Refused(8, at)
            assert reach <= LARGEST_REACH
            if depth == 0:
                raise Refused(9, at)
            plunges.append((x, y, reach, depth))
        else:
            if int.from_bytes(content, "big") != len(plunges):
                raise Refused(10, at)
            if after < len(data):
                raise Refused(11, after)
            return plate + (plunges,)
        at = after
