"""Buffers between guard pages.

Every buffer that a call gets ends right before a page that may not be touched: one byte read or written past an end is a
crash. Before its start stand known bytes, which are looked at after the call; with `front` the buffer starts right behind
such a page instead, so that a read before a start is a crash too. Input bytes must come out of a call as they went in.
"""
import ctypes
import mmap
import struct

import numpy as np

UNTOUCHED = 0xAA       # what outputs and work buffers hold before a call
BESIDE = 0x5C          # what stands beside a buffer
BESIDE_LENGTH = 64
NOWHERE = (None, 0, 1, 0xFFFF_FFFF_FFFF_FFF0)   # pointers for buffers of length 0; None: into the guard page

_libc = ctypes.CDLL(None, use_errno=True)
_libc.mprotect.argtypes = [ctypes.c_void_p, ctypes.c_size_t, ctypes.c_int]
PROT_NONE = 0


class Blank(int):
    """An output or work buffer of so many bytes, each UNTOUCHED before the call."""


class Lent(bytes):
    """An input whose length the call knows: it gets the pointer alone."""


class Replaceable(Lent):
    """One that the call may write: its bytes after the call are compared whole."""


class Free(int):
    """In what is expected: so many bytes that may hold anything; those behind them are UNTOUCHED."""


class Region:
    """Memory for one buffer at a time, with a guard page at either side."""

    def __init__(self, capacity):
        page = mmap.PAGESIZE
        self.capacity = -(-capacity // page) * page
        self.map = mmap.mmap(-1, self.capacity + 2 * page, mmap.MAP_PRIVATE | mmap.MAP_ANONYMOUS)
        base = ctypes.addressof(ctypes.c_char.from_buffer(self.map))
        for guard in (base, base + page + self.capacity):
            if _libc.mprotect(guard, page, PROT_NONE) != 0:
                raise OSError(ctypes.get_errno(), "mprotect")
        self.first = base + page
        self.bytes = np.frombuffer(self.map, np.uint8, self.capacity, page)

    def hold(self, part, front):
        """Puts a buffer in place; gives back its address."""
        self.part, self.front = part, front
        self.length = int(part) if isinstance(part, Blank) else len(part)
        if self.length + BESIDE_LENGTH > self.capacity:
            raise ValueError("a buffer larger than its region")
        self.at = 0 if front else self.capacity - self.length
        self.held = self.bytes[self.at:self.at + self.length]
        self.beside = (self.bytes[self.length:self.length + BESIDE_LENGTH] if front
                       else self.bytes[self.at - BESIDE_LENGTH:self.at])
        self.beside[:] = BESIDE
        self.held[:] = UNTOUCHED if isinstance(part, Blank) else np.frombuffer(part, np.uint8)
        return self.first + self.at

    def strayed(self):
        """What was changed that is not the call's to change, or None."""
        if (self.beside != BESIDE).any():
            return "bytes beside a buffer were written"
        if not isinstance(self.part, (Blank, Replaceable)) and self.held.tobytes() != self.part:
            return "an input was written"
        return None


class Outcome:
    """What a call answered, and what the buffers that it may write hold after it."""

    def __init__(self, answer, blanks, strayed):
        self.answer, self.blanks, self.strayed = answer, blanks, strayed


def fields(answer):
    """A struct's parts as a tuple, none of a call that answers nothing; a float is given by its 64 bits."""
    parts = []
    for name, form in answer._fields_ if answer is not None else ():
        part = plain(getattr(answer, name))
        parts.append(bits(part) if form is ctypes.c_double else part)
    return tuple(parts)


def plain(part):
    """A number as it is; an array of bytes, or a struct that holds one, by its bytes."""
    return bytes(part) if isinstance(part, (ctypes.Array, ctypes.Structure)) else part


def bits(number):
    return struct.pack(">d", number).hex()


class Desk:
    """Makes calls with guarded buffers."""

    def __init__(self, capacity=1 << 21, buffers=5):
        self.regions = [Region(capacity) for _ in range(buffers)]
        self.front = False
        self.nowhere = 0

    def call(self, function, parts):
        """Calls `function`; bytes and Blank become a pointer and a length, Lent and Replaceable a pointer; other parts go as they are."""
        arguments, used = [], []
        for part in parts:
            if isinstance(part, (bytes, Blank)):
                region = self.regions[len(used)]
                address = region.hold(part, self.front)
                if region.length == 0:
                    self.nowhere = (self.nowhere + 1) % len(NOWHERE)
                    if NOWHERE[self.nowhere] is not None:
                        address = NOWHERE[self.nowhere]
                arguments += [address] if isinstance(part, Lent) else [address, region.length]
                used.append(region)
            else:
                arguments.append(part)
        answer = fields(function(*arguments))
        strayed = next((s for s in (region.strayed() for region in used) if s), None)
        return Outcome(answer, [r.held.tobytes() for r in used if isinstance(r.part, (Blank, Replaceable))], strayed)
