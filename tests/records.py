"""What the makers of test cases share: reliefs by pattern, as crates/test_io fills them, bytes as it prints them, and a program's two files.

A record is one test case: a call with its arguments, the contents of its buffers and their lengths.
"""
import os
import sys

CRATES = os.path.join(os.path.dirname(os.path.abspath(__file__)), "..", "crates")
LITERAL, CONSTANT, NOISE, COLUMNS, DOME = range(5)
# What every output and work buffer holds before a call.
UNTOUCHED = 170
# Bytes up to this many are printed whole, of more two sums.
SHORT = 64
# What a program reads of its stdin.
INPUT = 65536


def patterned(pattern, seed, w, h, n, literal):
    """The n bytes of a relief."""
    if pattern == LITERAL:
        assert len(literal) == n
        return list(literal)
    if pattern == CONSTANT:
        return [seed] * n
    if pattern == NOISE:
        state, out = seed, []
        for _ in range(n):
            state = (state * 1103 + 12345) % 65536
            out.append(state // 256)
        return out
    if pattern == COLUMNS:
        return [seed if i % w < 13 else 0 for i in range(n)]
    cells = ((i % w, i // w) for i in range(n))
    return [min(255, x + 1, y + 1, w - x, h - y) if y < h else 0 for x, y in cells]


# ---- what is printed

def shown(content):
    if len(content) <= SHORT:
        return " ".join(f"{b:02x}" for b in content) + "\n"
    return f"sums {sum(content)} {sum(b * (i % 251 + 1) for i, b in enumerate(content))}\n"


def refused(number, place):
    return f"refused {number} {place}\n"


# ---- the files

def stored(crate, records, parts, packed, printed):
    """Lets each part add its records, then writes a program's stdin and stdout, or with --check compares them; whether one differs."""
    records.clear()
    for part in parts:
        part()
    stdin = b"".join(map(packed, records))
    stdout = "".join(map(printed, records)).encode()
    assert len(stdin) <= INPUT
    differing = False
    for name, content in (("stdin", stdin), ("stdout", stdout)):
        path = os.path.join(CRATES, crate, name)
        if "--check" not in sys.argv[1:]:
            with open(path, "wb") as out:
                out.write(content)
        elif not os.path.exists(path) or open(path, "rb").read() != content:
            print(f"{crate}: {name} differs")
            differing = True
    print(f"{crate}: {len(records)} records, {len(stdin)} bytes in, {len(stdout)} bytes out")
    return differing
