#!/usr/bin/env python3
"""Makes the stdin and the expected stdout of crates/test_pgm: PGM pictures read, made into scans, and depths made into pictures.

    python3 tests/test_pgm.py           writes the two files
    python3 tests/test_pgm.py --check   only compares: ends with 1 if a file differs

Pictures are read by regular expressions, after netpbm's words on the format. Its author had read the library's source, so it is another
computation and not another team's implementation.
"""
import re
import sys

from plates import sides_fit
from records import shown, stored

GAP = re.compile(rb"(?:[ \t\n\x0b\x0c\r]|#[^\n\r]*[\n\r]?)*")
NUMERAL = re.compile(rb"[0-9]*")
LARGE = 65536
RECORDS = []


class Fault(Exception):
    pass


# ---- the calls

def number(data, place, name, most, allowed):
    """A number of the header, where it begins and where it ends."""
    begin = GAP.match(data, place).end()
    digits = NUMERAL.match(data, begin).group()
    if not digits:
        raise Fault(f"no PGM picture: no {name} at byte {begin}")
    value = int(digits)
    if not 1 <= value <= most:
        found = value if value < LARGE else "above 65535"
        raise Fault(f"the {name} at byte {begin} is {found}: {allowed}")
    return value, begin + len(digits)


def picture(data):
    """Width, height, and the place of the first sample."""
    if data[:2] != b"P5":
        raise Fault("no PGM picture: it does not begin with P5")
    if GAP.match(data, 2).end() == 2:
        raise Fault("no PGM picture: no whitespace at byte 2")
    width, end = number(data, 2, "width", 240, "sides are 1 to 240")
    height, end = number(data, end, "height", 240, "sides are 1 to 240")
    most, end = number(data, end, "largest value", 255, "samples of 8 bits have 1 to 255")
    if data[end:end + 1] not in (b" ", b"\t", b"\n", b"\x0b", b"\x0c", b"\r"):
        raise Fault(f"no PGM picture: no whitespace at byte {end}")
    samples = data[end + 1:][:width * height]
    if len(samples) < width * height:
        raise Fault(f"the picture has {len(samples)} samples, {width * height} are needed")
    for i, sample in enumerate(samples):
        if sample > most:
            raise Fault(f"the sample at byte {end + 1 + i} is {sample}: the largest value is {most}")
    return width, height, end + 1


def copied(content, room):
    """What a call that copies prints, the output being room bytes long."""
    if len(content) > room:
        return f"needed {len(content)}\nrest kept\n"
    return f"copied {len(content)}\n{shown(content)}rest kept\n"


def scan_text(kind, room, data):
    try:
        width, height, at = picture(data)
    except Fault as fault:
        return f"{fault}\nunread\nrest kept\n"
    return f"picture {width} {height} {at}\n" + copied(bytes([kind, width, height]) + data[at:at + width * height], room)


def picture_text(width, height, room, depths):
    if len(depths) < width * height:
        return "too few\nrest kept\n"
    content = b"P5\n%d %d\n255\n" % (width, height) + depths[:width * height]
    if sides_fit(width, height):
        assert picture(content) == (width, height, len(content) - width * height)
    return copied(content, room)


# ---- records

def packed(record):
    call, first, second, room, literal, more, byte = record
    words = (first, second, room, len(literal), more)
    return bytes([call]) + b"".join(n.to_bytes(2, "big") for n in words) + bytes([byte]) + literal


def printed(record):
    call, first, second, room, literal, more, byte = record
    data = literal + bytes([byte]) * more
    if call == 0:
        return scan_text(first, room, data)
    return picture_text(first, second, room, data)


def add_picture(literal, kind=8, room=64, more=0, byte=0):
    RECORDS.append((0, kind, 0, room, literal, more, byte))


def add_depths(width, height, literal=b"", room=64, more=0, byte=0):
    RECORDS.append((1, width, height, room, literal, more, byte))


def headers():
    """Whitespace of every sort, comments in odd places, and parts that are missing."""
    for literal in (
            b"", b"P", b"P5", b"P6\n1 1\n255\n\x07", b"p5\n1 1\n255\n\x07", b"P2\n1 1\n255\n7\n", b"\x00P5\n1 1\n255\n\x07", b"P51 1\n255\n\x07", b"P5x",
            b"P5\n1 1\n255\n\x07", b"P5 1 1 255 \x07", b"P5\t1\x0b1\x0c255\r\x07", b"P5\r\n1\r\n1\r\n255\n\x07", b"P5\n\n  1 \t 1\n\n\n255\n\x07",
            b"P5#one\n1 1\n255\n\x07", b"P5\n# made by hand\n1 1\n255\n\x07", b"P5\n#\n#\n1#w\n1#h\r#again\n255\n\x07", b"P5 1#2 3\n1 255\n\x07",
            b"P5\n# never ends", b"P5\n1 1\n255# no\n\x07", b"P5\n1 1\n255", b"P5\n1 1\n255x\x07", b"P5\n1 1\n255\x00\x07", b"P5\n1 1\n255\n", b"P5\n1 1\n",
            b"P5\n1", b"P5\n1 ", b"P5\n", b"P5\n1 #1\n", b"P5\n-1 1\n255\n\x07", b"P5\n1.5 1\n255\n\x07", b"P5\n1,1\n255\n\x07", b"P5\n+1 1\n255\n\x07",
            b"P5\n1 x\n255\n\x07", b"P5\n1 1\nabc\n\x07", b"P5\n1 1\n255\n\n", b"P5\n1 1\n255\n#", b"P5\n1 1\n255\r\n"):
        add_picture(literal)


def numbers():
    """Sides and largest values at and past their ends, zeros in front, and numerals that no machine word holds."""
    for side in (b"0", b"1", b"2", b"007", b"240", b"241", b"255", b"256", b"300", b"65535", b"65536", b"65537", b"4294967297", b"18446744073709551617"):
        add_picture(b"P5\n" + side + b" 1\n255\n", room=512, more=240, byte=9)
        add_picture(b"P5\n1 " + side + b"\n255\n", room=512, more=240, byte=9)
    add_picture(b"P5\n" + b"9" * 400 + b" 1\n255\n\x07")
    add_picture(b"P5\n" + b"0" * 400 + b"1 1\n255\n\x07")
    for most in (b"0", b"1", b"7", b"8", b"254", b"255", b"256", b"65535", b"65536", b"99999999999999999999", b"0255"):
        add_picture(b"P5\n2 1\n" + most + b"\n\x00\x07")


def rasters():
    """Samples that are missing, too many or too large; outputs that are too short; the bytes of a kind."""
    add_picture(b"P5\n3 2\n255\nabcdef")
    add_picture(b"P5\n3 2\n255\nabcde")
    add_picture(b"P5\n3 2\n255\nabcdefgh")
    add_picture(b"P5\n2 3\n9\n\x00\x01\x02\x09\x08\x07")
    add_picture(b"P5\n2 3\n9\n\x00\x01\x02\x0a\x0b\x07")
    add_picture(b"P5\n2 3\n9\n\x00\x01\x02\x03\x04\x0a")
    add_picture(b"P5\n2 3\n9\n\x00\x01\x02\x03\x04\x05\xff")
    add_picture(b"P5\n2 1\n1\n\x02\x03")
    for room in (0, 1, 2, 3, 8, 9, 10):
        add_picture(b"P5\n3 2\n255\nabcdef", room=room)
    for kind in (0, 4, 255):
        add_picture(b"P5\n1 1\n255\n\x07", kind=kind)
    add_picture(b"P5\n24 24\n255\n", room=600, more=297, byte=1)
    add_picture(b"P5\n240 240\n255\n", room=60000, more=57600, byte=200)
    add_picture(b"P5\n240 240\n255\n", room=60000, more=57599, byte=200)
    add_picture(b"P5\n240 240\n199\n", room=60000, more=57600, byte=200)
    add_picture(b"P5\n240 240\n255\n", room=57602, more=57600, byte=200)


def depths():
    """Depths as pictures: numerals of one to five digits, too few depths, outputs that are too short."""
    add_depths(1, 1, b"\x07")
    add_depths(3, 2, b"abcdef")
    add_depths(3, 2, b"abcdefg")
    add_depths(3, 2, b"abcde")
    add_depths(0, 0)
    add_depths(0, 9, b"abc")
    add_depths(65535, 0)
    for room in (0, 10, 16, 17, 18):
        add_depths(3, 2, b"abcdef", room=room)
    add_depths(10, 1, b"0123456789")
    add_depths(1, 100, room=200, more=100, byte=99)
    add_depths(240, 240, room=60000, more=57600, byte=3)
    add_depths(240, 240, room=57614, more=57600, byte=3)
    add_depths(240, 240, room=60000, more=57599, byte=3)
    add_depths(12345, 4, room=60000, more=49380, byte=250)
    add_depths(65535, 65535, more=100)


if __name__ == "__main__":
    sys.exit(stored("test_pgm", RECORDS, (headers, numbers, rasters, depths), packed, printed))
