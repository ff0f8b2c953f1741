#!/usr/bin/env python3
"""Runs the programs plunges and jobtool where they are built: statuses, wrong uses, and how much they take.

    python3 tests/test_programs.py --check    ends with 1 if a program does something else (the word may be left out)

A program is crates/run_NAME/out/run_NAME, where rt leaves it, or target/programs/NAME, where tools/build puts it. One that is not built is not tried.
"""
import os
import subprocess
import sys
import tempfile

TOP = os.path.realpath(os.path.join(os.path.dirname(os.path.abspath(__file__)), ".."))
SCAN = bytes([8, 3, 3, 4, 4, 4, 4, 9, 4, 4, 4, 4])
SIDE, LIMIT = 240, 1048576
FAULTS = []


def built(name):
    for path in (f"crates/run_{name}/out/run_{name}", f"target/programs/{name}"):
        if os.access(os.path.join(TOP, path), os.X_OK):
            return os.path.join(TOP, path)
    return None


def expect(what, found, wanted):
    if found != wanted:
        FAULTS.append(f"{what}: {found!r:.300} and not {wanted!r:.300}")


def run(program, folder, *words, given=b""):
    ran = subprocess.run([program, *words], input=given, capture_output=True, cwd=folder, timeout=60, check=False)
    return ran.returncode, ran.stdout, ran.stderr


def plunges(program, folder):
    expect("a scan", run(program, folder, given=SCAN), (0, b"plate 8 3 3\n0 1 1 9\n1 1 1 4\ntotal 2\n", b""))
    expect("no scan", run(program, folder), (1, b"refused 1 0\n", b""))
    status, said, why = run(program, folder, "coin.scan")
    expect("a word", (status, said, why.startswith(b"usage: plunges < SCAN")), (2, b"", True))
    largest = bytes([8, SIDE, SIDE]) + bytes([7]) * SIDE * SIDE
    expect("the largest plate", run(program, folder, given=largest)[0], 0)
    expect("what follows it changes nothing", run(program, folder, given=largest + bytes(100000)), run(program, folder, given=largest))


def jobtool(program, folder):
    expect("the version", run(program, folder, "--version")[0], 0)
    status, made, why = run(program, folder, "list", given=SCAN)
    expect("a list", (status, len(made), why), (0, 27, b""))
    expect("no list", run(program, folder, "list")[::2], (1, b"refused 1 0\njobtool: standard input: it is empty\n"))
    expect("a wrong use", run(program, folder, "paint")[:2], (2, b""))
    expect("no such file", run(program, folder, "tidy", "none"), (2, b"", b"jobtool: none: No such file or directory\n"))
    surplus = SCAN + bytes(LIMIT - len(SCAN))
    expect("an input of the limit", run(program, folder, "list", given=surplus), (0, made, b""))
    expect("a longer one", run(program, folder, "list", given=surplus + b"\0"),
           (2, b"", f"jobtool: standard input: longer than {LIMIT} bytes\n".encode()))
    with open(os.path.join(folder, "out"), "wb") as out:
        out.write(b"as it was")
    os.chmod(os.path.join(folder, "out"), 0o600)
    expect("a refusal", run(program, folder, "tidy", "-o", "out", given=SCAN)[0], 1)
    expect("files", (open(os.path.join(folder, "out"), "rb").read(), os.listdir(folder)), (b"as it was", ["out"]))
    expect("an answer in a file", run(program, folder, "tidy", "-o", "out", given=made), (0, b"", b""))
    expect("the file", (open(os.path.join(folder, "out"), "rb").read(), os.stat(os.path.join(folder, "out")).st_mode & 0o7777, os.listdir(folder)),
           (made, 0o600, ["out"]))
    os.symlink("out", os.path.join(folder, "link"))
    expect("by a link", run(program, folder, "draw", "-o", "link", given=made), (0, b"", b""))
    expect("the link", (os.readlink(os.path.join(folder, "link")), open(os.path.join(folder, "out"), "rb").read()), ("out", SCAN))
    name = b"\xff\xfe"
    expect("a name that is no text", run(program, folder, "tidy", name),
           (2, b"", b"jobtool: \xff\xfe: Invalid or incomplete multibyte or wide character\n"))
    os.symlink(name, os.path.join(folder, "lost"))
    expect("a link to one", run(program, folder, "tidy", "-o", "lost", given=made)[0], 2)
    expect("that link stays", os.path.islink(os.path.join(folder, "lost")), True)


def main():
    tried = 0
    for name, part in (("plunges", plunges), ("jobtool", jobtool)):
        program = built(name)
        if program is None:
            print(f"test_programs: {name} is not built: it was not tried")
            continue
        tried += 1
        with tempfile.TemporaryDirectory() as folder:
            part(program, folder)
    for fault in FAULTS:
        print(f"test_programs: {fault}")
    print(f"test_programs: {tried} programs, {len(FAULTS)} faults")
    sys.exit(bool(FAULTS))


main()
