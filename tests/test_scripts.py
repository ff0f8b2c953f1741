#!/usr/bin/env python3
"""Runs ./jobtool, ./plunges and tools/build in a copy with a stand-in for rt: what is built when, statuses, words.

    python3 tests/test_scripts.py --check    ends with 1 if a script does something else (the word may be left out)

The stand-in for rt makes a program that echoes its arguments, copies its standard input, and ends in the ways that its arguments name.
tests/test_programs.py runs the programs themselves.
"""
import os
import pty
import shutil
import signal
import subprocess
import sys
import tempfile
import time

TOP = os.path.join(os.path.dirname(os.path.abspath(__file__)), "..")
RT = """#!/bin/sh
crate=${PWD##*/}
[ "$1" = run ] || exit 2
echo "$crate $*" >> "$CALLS"
[ -z "${RT_FAILS:-}" ] || { echo 'rt: a NOT PROVED'; exit 1; }
echo 'logic=proved functions=1'
sleep "${RT_SLEEPS:-0}"
echo 'logic=proved functions=2'
[ -z "${RT_MAKES_NONE:-}" ] || exit 0
mkdir -p out
cat > "out/$crate" <<'PROGRAM'
#!/bin/sh
case ${1:-} in
    end) echo "${3:-}" >&2; exit "$2" ;;
    crash) kill -SEGV $$ ;;
    hang) echo $$ > "$2"; exec sleep 60 ;;
    copy) cat ;;
    *) echo "ran $*" ;;
esac
PROGRAM
chmod +x "out/$crate"
shift
[ "${1:-}" != -- ] || shift
"out/$crate" "$@"
"""
NEEDED = "awk cat chmod cp dirname find grep head mkdir mv readlink sleep tail".split()
FAULTS = []


def expect(what, found, wanted):
    if found != wanted:
        FAULTS.append(f"{what}: {found!r} and not {wanted!r}")


def put(path, text, mode=0o644):
    with open(path, "w", encoding="ascii") as out:
        out.write(text)
    os.chmod(path, mode)


def get(path):
    with open(path, encoding="ascii") as read:
        return read.read()


class Tree:
    """A copy of the scripts with two programs and one library; on the PATH are the stand-ins and what the scripts need, nothing else."""

    def __init__(self, folder):
        self.folder, self.top, self.bin = folder, os.path.join(folder, "repository"), os.path.join(folder, "bin")
        for sub in ("repository/tools", "repository/crates/a/src", "repository/crates/run_jobtool/src", "repository/crates/run_plunges", "bin"):
            os.makedirs(os.path.join(folder, sub))
        for name in ("jobtool", "plunges", "tools/build", "tools/KIT-ID", "crates/run_plunges/stdin"):
            shutil.copy2(os.path.join(TOP, name), os.path.join(self.top, name))
        for name in NEEDED:
            os.symlink(shutil.which(name), os.path.join(self.bin, name))
        self.write("crates.txt", "a: io # a library\nrun_jobtool: io a\nrun_plunges: a\n")
        self.write("crates/a/src/lib.rt", "// a\n")
        self.write("crates/run_jobtool/src/main.rt", "// a main\n")
        put(os.path.join(self.bin, "rt"), RT, 0o755)

    def write(self, name, text):
        put(os.path.join(self.top, name), text)

    def noted(self, name):
        return os.path.join(self.folder, name)

    def environment(self, **more):
        return dict(os.environ, PATH=self.bin, CALLS=self.noted("calls"), **more)

    def run(self, *words, script="jobtool", given=b"", **more):
        ran = subprocess.run([os.path.join(self.top, script), *words], input=given, capture_output=True, env=self.environment(**more), check=False)
        return ran.returncode, ran.stdout.decode(), ran.stderr.decode()

    def forget(self, name="jobtool"):
        os.remove(os.path.join(self.top, "target/programs", name))

    def without(self, name, *words, **more):
        """A run where a program is not on the PATH."""
        os.rename(os.path.join(self.bin, name), self.noted("hidden"))
        ran = self.run(*words, **more)
        os.rename(self.noted("hidden"), os.path.join(self.bin, name))
        return ran

    def built(self):
        return len(get(self.noted("calls")).splitlines()) if os.path.exists(self.noted("calls")) else 0


# ---- building

def building(tree):
    """Built once, of the right parts; again after any change."""
    expect("first run", tree.run("a", "b c"), (0, "ran a b c\n", ""))
    expect("call", get(tree.noted("calls")), "run_jobtool run -- --version\n")
    expect("second run", tree.run(), (0, "ran \n", ""))
    expect("builds", tree.built(), 1)
    for count, name in enumerate(("crates/a/src/lib.rt", "crates.txt", "crates/run_jobtool/src/main.rt", "tools/KIT-ID"), 2):
        time.sleep(0.02)
        tree.write(name, get(os.path.join(tree.top, name)) + "\n")
        tree.run()
        expect(f"builds after a change of {name}", tree.built(), count)
    tree.forget()
    tree.run()
    expect("builds where the program is gone", tree.built(), 6)
    expect("tools/build", tree.run("jobtool", script="tools/build"), (0, os.path.join(os.path.realpath(tree.top), "target/programs/jobtool") + "\n", ""))
    expect("tools/build without a name", tree.run(script="tools/build")[:2], (2, ""))
    os.symlink(os.path.join(tree.top, "jobtool"), tree.noted("link"))
    through = subprocess.run([tree.noted("link"), "x"], capture_output=True, env=tree.environment(), cwd="/", check=False)
    expect("through a link", through.stdout, b"ran x\n")
    expect("builds at the end", tree.built(), 6)


def failing(tree):
    """What cannot be built is said, with 2; what stands is run without rt."""
    expect("current, without rt", tree.without("rt"), (0, "ran \n", ""))
    tree.forget()
    status, said, why = tree.without("rt")
    expect("not built, without rt", (status, said, "no rt on the PATH" in why), (2, "", True))
    expect("no such program", tree.run("other", script="tools/build")[:2], (2, ""))
    shutil.rmtree(os.path.join(tree.top, "crates/run_jobtool/out"))
    for fails, words in (("RT_FAILS", "NOT PROVED"), ("RT_MAKES_NONE", "jobtool was not built")):
        status, said, why = tree.run(**{fails: "1"})
        expect(fails, (status, said, words in why, "target/jobtool.log" in why), (2, "", True, True))
    expect("after a failure", tree.run("x"), (0, "ran x\n", ""))
    time.sleep(0.02)
    tree.write("crates/a/src/lib.rt", "// another\n")
    expect("changed, and rt fails", tree.run("x", RT_FAILS="1")[:2], (2, ""))
    before = tree.built()
    expect("changed, and built", (tree.run("x"), tree.built()), ((0, "ran x\n", ""), before + 1))


def terminal(tree):
    """On a terminal it says how far it is."""
    if os.path.exists(os.path.join(tree.top, "target/programs/jobtool")):
        tree.forget()
    try:
        ours, theirs = pty.openpty()
    except OSError:
        print("test_scripts: no terminal can be had here: what is said there was not looked at")
        return
    subprocess.run([os.path.join(tree.top, "jobtool")], stdout=subprocess.DEVNULL, stderr=theirs, env=tree.environment(RT_SLEEPS="1.5"), check=False)
    os.close(theirs)
    said = b""
    try:
        while part := os.read(ours, 4096):
            said += part
    except OSError:
        pass
    expect("on a terminal", b"building jobtool: crate 1 of 2" in said, True)


# ---- running

def statuses(tree):
    """The script is the program: what goes in and out, and its status, are the program's."""
    expect("input and output", tree.run("copy", given=b"\0\1"), (0, "\0\1", ""))
    for status in range(4):
        expect(f"status {status}", tree.run("end", str(status), "why"), (status, "", "why\n"))
    expect("crash", tree.run("crash")[0], -signal.SIGSEGV)
    expect("words as they are", tree.run("a  b", "", "*", "-o"), (0, "ran a  b  * -o\n", ""))
    expect("plunges", tree.run("copy", script="plunges", given=b"scan"), (0, "scan", ""))
    expect("plunges with a word", tree.run("end", "2", "usage", script="plunges"), (2, "", "usage\n"))
    status, said, why = tree.run("--help", script="plunges")
    expect("plunges --help", (status, said.startswith("usage: plunges < SCAN"), why), (0, True, ""))
    tree.forget("plunges")
    expect("plunges --help, not built", tree.without("rt", "--help", script="plunges")[0], 0)


def signals(tree):
    """A signal to the script is a signal to the program: they are one process."""
    noted = tree.noted("pid")
    script = subprocess.Popen([os.path.join(tree.top, "jobtool"), "hang", noted], stderr=subprocess.DEVNULL, env=tree.environment())
    for _ in range(600):
        if os.path.exists(noted) and get(noted).strip():
            break
        time.sleep(0.05)
    expect("the program's process", int(get(noted)), script.pid)
    script.send_signal(signal.SIGTERM)
    expect("ended by a signal", script.wait(), -signal.SIGTERM)


def main():
    with tempfile.TemporaryDirectory() as folder:
        tree = Tree(folder)
        if not os.access(os.path.join(tree.bin, "rt"), os.X_OK):
            print("test_scripts: nothing can be run in the folder for temporary files: the scripts were not tried")
            return
        for part in (building, failing, terminal, statuses, signals):
            part(tree)
    for fault in FAULTS:
        print(f"test_scripts: {fault}")
    print(f"test_scripts: jobtool, plunges and tools/build, {len(FAULTS)} faults")
    sys.exit(bool(FAULTS))


main()
