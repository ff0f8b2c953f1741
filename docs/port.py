#!/usr/bin/env python3
"""docs/port.py: the press port's tables as they stand in crates/port/specs/Machine.antt, for docs/PORT-OTHER.md. Needs python3 without packages.

    docs/port.py            draws docs/port.svg, and writes the table of turns and the run of PORT-OTHER.md anew
    docs/port.py --check    writes nothing; ends with 1 where one of them is not what it makes

The tables are held to those of tests/press_port.py, which are made from the request's words alone; so are the numbers of the run.
"""
import os
import re
import sys

TOP = os.path.join(os.path.dirname(os.path.abspath(__file__)), "..")
sys.path.append(os.path.join(TOP, "tests"))
import press_port  # noqa: E402

MACHINE = os.path.join(TOP, "crates", "port", "specs", "Machine.antt")
PAGE = os.path.join(TOP, "docs", "PORT-OTHER.md")
PICTURE = os.path.join(TOP, "docs", "port.svg")

# where each status stands in the picture, and the words for it
PLACES = {1: (190, 190), 2: (610, 190), 129: (400, 60), 132: (610, 320), 4: (190, 320)}
MIDDLE = 400
WORDS = {1: "ready", 2: "busy", 129: "interrupt, ready", 132: "interrupt, fault", 4: "fault"}
WIDTH, HEIGHT = 150, 56
EVENTS = {1: "done", 2: "fault"}

# the run: what is told to the port, and what it is about
RUN = [
    (("write", 2, 17), "column 17"),
    (("write", 3, 31), "row 31"),
    (("write", 4, 2), "reach 2"),
    (("write", 5, 110), "depth 110"),
    (("write", 1, 1), "command 1: sink"),
    (("write", 2, 40), "too early: busy"),
    (("event", 1), "done"),
    (("write", 2, 40), "too early: 129 is not 1"),
    (("write", 1, 2), "command 2: seen"),
    (("write", 2, 40), "column 40"),
    (("write", 1, 1), "command 1: sink"),
    (("event", 2), "fault"),
    (("write", 1, 3), "not seen yet"),
    (("write", 1, 2), "command 2: seen"),
    (("write", 1, 3), "command 3: mended"),
    (("write", 6, 0), "the count is the port's"),
]


def read(path):
    with open(path, encoding="utf-8") as file:
        return file.read()


# ---- the tables

def number(text, names):
    """A literal, a name, or a sum of them."""
    return sum(int(part) if part.isdigit() else names[part] for part in re.findall(r"\w+", text))


def turns(text, table, names):
    """The entries of a table: its input, the status before and the status after."""
    body = re.search(rf"^{table} =\n((?:    .*\n)+)", text, re.M).group(1)
    parts = re.findall(r"turn (\w+|\([^)]*\)) (\w+|\([^)]*\)) (\w+|\([^)]*\))", body)
    return [tuple(number(part, names) for part in entry) for entry in parts]


def tables():
    """Both tables of the definition, as (name, input, status, status after)."""
    text = read(MACHINE)
    names = {name: int(value) for name, value in re.findall(r"^(\w+) = (\d+)$", text, re.M)}
    entries = [("command", *entry) for entry in turns(text, "commands", names)]
    return entries + [("event", *entry) for entry in turns(text, "events", names)]


def as_turns(entries):
    """The same as tests/press_port.py has them."""
    made = {}
    for name, given, before, after in entries:
        made.setdefault((name, given), {})[before] = after
    return made


# ---- the picture

def label(name, given):
    if name == "command":
        return f"command {given}"
    return "event done, count + 1" if given == press_port.DONE else f"event {EVENTS[given]}"


def edge(start, end):
    """Where the line between two statuses leaves the box of the first."""
    dx, dy = end[0] - start[0], end[1] - start[1]
    share = min((WIDTH / 2 / abs(dx)) if dx else 9, (HEIGHT / 2 / abs(dy)) if dy else 9)
    return start[0] + dx * share, start[1] + dy * share


def arrow(name, given, before, after):
    start, end = PLACES[before], PLACES[after]
    (x1, y1), (x2, y2) = edge(start, end), edge(end, start)
    x, y = (x1 + x2) / 2, (y1 + y2) / 2
    anchor, dx, dy = "middle", 0, -8
    if start[0] == end[0]:
        anchor, dx, dy = ("start", 10, 5) if start[0] < MIDDLE else ("end", -10, 5)
    elif start[1] != end[1]:
        anchor, dx, dy = ("end", -14, -6) if x < MIDDLE else ("start", 14, -6)
    line = f'<line x1="{x1:.0f}" y1="{y1:.0f}" x2="{x2:.0f}" y2="{y2:.0f}" stroke="#333" stroke-width="1.5" marker-end="url(#tip)"/>'
    return f'{line}\n<text x="{x + dx:.0f}" y="{y + dy:.0f}" text-anchor="{anchor}" font-size="14">{label(name, given)}</text>'


def box(status):
    x, y = PLACES[status]
    colour = "#fbe3e0" if status & 4 else "#fdf3d6" if status & 2 else "#e3f1e5"
    return (f'<rect x="{x - WIDTH // 2}" y="{y - HEIGHT // 2}" width="{WIDTH}" height="{HEIGHT}" rx="10" fill="{colour}" stroke="#333"/>\n'
            f'<text x="{x}" y="{y - 3}" text-anchor="middle" font-size="19" font-weight="bold">{status}</text>\n'
            f'<text x="{x}" y="{y + 17}" text-anchor="middle" font-size="13">{WORDS[status]}</text>')


def picture(entries):
    reached = sorted({status for _, _, *both in entries for status in both})
    tip = ('<defs><marker id="tip" viewBox="0 0 10 10" refX="9" refY="5" markerWidth="8" markerHeight="8" orient="auto">'
           '<path d="M0 0L10 5L0 10z" fill="#333"/></marker></defs>')
    start = ('<circle cx="190" cy="100" r="6" fill="#333"/>\n<line x1="190" y1="106" x2="190" y2="162" stroke="#333" stroke-width="1.5" '
             'marker-end="url(#tip)"/>\n<text x="176" y="105" text-anchor="end" font-size="14">at start</text>')
    loop = ('<path d="M115 202C50 232 50 148 115 178" fill="none" stroke="#333" stroke-width="1.5" marker-end="url(#tip)"/>\n'
            '<text x="62" y="186" text-anchor="end" font-size="14">bytes</text>\n<text x="62" y="204" text-anchor="end" font-size="14">2 to 5</text>')
    parts = [tip, start, *(box(status) for status in reached), *(arrow(*entry) for entry in entries), loop]
    head = '<svg xmlns="http://www.w3.org/2000/svg" viewBox="0 0 700 360" font-family="sans-serif">'
    return "\n".join([head, '<rect width="700" height="360" fill="white"/>', *parts, "</svg>", ""])


# ---- the page

def turn_table(entries):
    rows = ["| Given | turns status | into |", "|---|---|---|"]
    for name, given, before, after in entries:
        what = f"command {given}" if name == "command" else f"event \"{EVENTS[given]}\""
        rows.append(f"| {what} | {before}, {WORDS[before]} | {after}, {WORDS[after]} |")
    return "\n".join(rows)


def run_lines():
    """One line for each input: what is told, the answer, the eight bytes after it, and what it is about."""
    port, lines = press_port.FRESH, [f"{'':15} {shown(press_port.FRESH)}  at start"]
    for given, about in RUN:
        answer, port = press_port.step(port, *given)
        what = f"write {given[1]} {given[2]}" if given[0] == "write" else f"event {given[1]}"
        lines.append(f"{what:12} {answer or '':>2} {shown(port)}  {about}")
    return "\n".join(lines)


def shown(port):
    return " ".join(f"{byte:3}" for byte in port)


def with_part(page, name, part):
    """The page with what stands between two marks made anew."""
    begin, end = f"<!-- {name} -->\n", f"<!-- end of {name} -->\n"
    before, rest = page.split(begin)
    return before + begin + part + "\n" + end + rest.split(end)[1]


def main():
    entries = tables()
    if as_turns(entries) != press_port.TURNS:
        sys.exit("docs/port.py: the tables of crates/port/specs/Machine.antt are not those of tests/press_port.py")
    page = with_part(read(PAGE), "turns", turn_table(entries))
    page = with_part(page, "run", f"```\n{run_lines()}\n```")
    made = {PICTURE: picture(entries), PAGE: page}
    if "--check" in sys.argv[1:]:
        wrong = [path for path, text in made.items() if not os.path.exists(path) or read(path) != text]
        sys.exit("".join(f"docs/port.py: {os.path.basename(path)} is not what the tables make\n" for path in wrong) or 0)
    for path, text in made.items():
        with open(path, "w", encoding="utf-8") as file:
            file.write(text)


if __name__ == "__main__":
    main()
