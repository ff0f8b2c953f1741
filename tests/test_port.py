#!/usr/bin/env python3
"""Makes crates/test_port/stdin and the expected crates/test_port/stdout: the press port, by document 02's N7.

    python3 tests/test_port.py           writes both files
    python3 tests/test_port.py --check   only compares: ends with 1 if a file differs

The machine is tests/press_port.py. Before it is used, all that it reaches from a fresh port is held to a table written
by hand, and at each input of a run its count to the number of accepted events "done". A trace of inputs is held to the
same inputs one by one.
"""
import sys
from typing import NamedTuple

import press_port
from press_port import (ACKNOWLEDGE, CLEAR, COMMAND, DONE, EVENTS, FAULT, FRESH, INDICES, LARGEST_COUNT, PARAMETERS,
                        REACHED, START, count, filled, limited, traced)
from records import UNTOUCHED, refused, shown, stored

STEPS, WRITES, EVENT, RANDOM, TRACE, TURNING = range(1, 7)
LINE = 32    # bytes of an output to a line
RECORDS = []


# ---- the paper's table

# In each row a status, and what comes of each input: the status after it, or the refusal; no status is 16 or 17.
PAPER = """
status  bytes-2-to-5  command-1  command-2  command-3  other-command  done  fault  other-event  other-byte
1       1             2          17         17         17             17    17     17           16
2       17            17         17         17         17             129   132    17           16
4       17            17         17         1          17             17    17     17           16
129     17            17         1          17         17             17    17     17           16
132     17            17         4          17         17             17    17     17           16
"""
SORTS = {
    "bytes-2-to-5": [("write", i, value) for i in PARAMETERS for value in range(256)],
    "command-1": [("write", COMMAND, 1)],
    "command-2": [("write", COMMAND, 2)],
    "command-3": [("write", COMMAND, 3)],
    "other-command": [("write", COMMAND, value) for value in (0, *range(4, 256))],
    "done": [("event", 1)],
    "fault": [("event", 2)],
    "other-event": [("event", number) for number in EVENTS if number not in (1, 2)],
    "other-byte": [("write", i, value) for i in INDICES if i not in range(1, 6) for value in (0, 1, 2, 3, 255)],
}


def paper():
    """The table's rows, by status."""
    names, *rows = (line.split() for line in PAPER.split("\n") if line)
    return {int(row[0]): dict(zip(names[1:], map(int, row[1:]))) for row in rows}


def explored():
    """Each status that a fresh port comes to has a row, each input there does what the row says, and no row is left."""
    rows, left, seen = paper(), [FRESH], set()
    while left:
        port = left.pop()
        if port[0] in seen:
            continue
        seen.add(port[0])
        for sort, inputs in SORTS.items():
            for given in inputs:
                number, after = press_port.step(port, *given)
                assert (number or after[0]) == rows[port[0]][sort], (port[0], given)
                assert number == 0 or after == port, (port[0], given)
                left.append(after)
    assert seen == set(rows) == set(REACHED)


# ---- records

class Record(NamedTuple):
    call: int
    port: bytes = None    # None: a fresh one
    number: int = 0       # the first index or event, or a seed, or an output's length
    count: int = 1        # of indices, events, inputs or bytes of a trace
    every: int = 0        # inputs of a run between bytes that are printed
    inputs: tuple = ()
    trace: bytes = b""


def add(call, **more):
    RECORDS.append(Record(call, **more))


def packed_input(name, number, value=0):
    return bytes([name == "event"]) + number.to_bytes(8, "big") + bytes([value])


def packed(record):
    start = bytes([record.call, record.port is not None]) + (record.port or bytes(8))
    numbers = record.number.to_bytes(8, "big") + record.count.to_bytes(4, "big") + record.every.to_bytes(4, "big")
    return start + numbers + b"".join(packed_input(*given) for given in record.inputs) + record.trace


def add_steps(inputs, port=None):
    add(STEPS, port=port, count=len(inputs), inputs=tuple(inputs))


def add_trace(trace, room, port=None):
    add(TRACE, port=port, number=room, count=len(trace), trace=trace)


def add_traced(inputs, port=None, more=0):
    """A trace of inputs, with an output that has so many bytes more; one by one they give the same."""
    trace, room = traced(inputs), len(inputs) + more
    numbers, after = [], port or FRESH
    for given in inputs:
        number, after = press_port.step(after, *given)
        numbers.append(number)
    assert press_port.run(port or FRESH, trace, room) == (0, 0, after, bytes(numbers))
    add_trace(trace, room, port)


# ---- what is printed

def mixed(total, n):
    return (total * 16777619 + n) % 4294967291


def with_answer(total, number, port):
    total = mixed(total, number)
    total = mixed(total, int.from_bytes(port[:4], "big"))
    return mixed(total, int.from_bytes(port[4:], "big"))


def steps_printed(record, port):
    lines = [shown(port)]
    for given in record.inputs:
        number, port = press_port.step(port, *given)
        lines += [refused(number, 0) if number else "accepted\n", shown(port)]
    return "".join(lines)


class Tally:
    """What came of inputs, each at a port of its own."""

    def __init__(self):
        self.answers, self.total, self.lines = {0: 0, 16: 0, 17: 0}, 0, []

    def add(self, port, name, what, answer):
        number, after = answer
        self.answers[number] += 1
        self.total = with_answer(self.total, number, after)
        if not number:
            self.lines.append(f"status {port[0]}, {name} {what}: {after[0]}\n")

    def printed(self):
        end = f"accepted {self.answers[0]}, 16 {self.answers[16]}, 17 {self.answers[17]}, changed 0, sum {self.total}\n"
        return "".join(self.lines) + end


def with_statuses(port):
    return [bytes([status]) + port[1:] for status in range(256)]


def writes_printed(record, port):
    text = ""
    for index in range(record.number, record.number + record.count):
        tally = Tally()
        for one in with_statuses(port):
            for value in range(256):
                tally.add(one, "write", value, press_port.write(one, index, value))
        text += f"byte {index}\n" + tally.printed()
    return text


def events_printed(record, port):
    tally = Tally()
    for number in range(record.number, record.number + record.count):
        for one in with_statuses(port):
            tally.add(one, "event", number, press_port.event(one, number))
    return f"events from {record.number}\n" + tally.printed()


# ---- runs

STARTED, SEEN, MENDED = (("write", COMMAND, command) for command in (START, ACKNOWLEDGE, CLEAR))
PRESSED, FAILED = ("event", DONE), ("event", FAULT)
# what a generator's state asks for by its four highest bits; the two numbers left ask for others
USUAL = [STARTED] * 4 + [PRESSED] * 4 + [FAILED] + [SEEN] * 4 + [MENDED]
OTHER_INDICES = (*range(12), 257, 2 ** 32 + 2, 2 ** 63 + 1, 2 ** 64 - 1)
OTHER_EVENTS = (*range(12), 257, 65537, 2 ** 31 + 1, 2 ** 32 - 1)


def random_inputs(state):
    """Inputs by a linear congruential generator."""
    while True:
        first, value, sort = state >> 28, state >> 20 & 255, state >> 16 & 15
        if first < len(USUAL):
            yield USUAL[first]
        elif value % 4 == 0:
            yield "event", OTHER_EVENTS[sort]
        elif value % 4 == 1:
            yield "write", COMMAND, value // 4
        else:
            yield "write", OTHER_INDICES[sort], value
        state = (state * 1664525 + 1013904223) % 2 ** 32


def turns():
    """Full turns: a plunge is started, done, and the interrupt seen."""
    while True:
        yield from (STARTED, PRESSED, SEEN)


def run_printed(record, port):
    first, accepted, total, text = count(port), 0, 0, ""
    inputs = random_inputs(record.number) if record.call == RANDOM else turns()
    for i, given in zip(range(record.count), inputs):
        if record.every and i % record.every == 0:
            text += f"done {accepted}, sum {total}: {shown(port)}"
        number, port = press_port.step(port, *given)
        accepted += number == 0 and given == PRESSED
        total = with_answer(total, number, port)
        assert count(port) == limited(accepted, first)
    return text + f"done {accepted}, sum {total}: {shown(port)}"


# ---- traces

def trace_printed(record, port):
    number, place, after, numbers = press_port.run(port, record.trace, record.number)
    out = numbers + bytes([UNTOUCHED] * (record.number - len(numbers)))
    lines = (shown(out[at:at + LINE]) for at in range(0, len(out), LINE))
    return (refused(number, place) if number else "accepted\n") + shown(after) + "".join(lines)


PRINTED = {STEPS: steps_printed, WRITES: writes_printed, EVENT: events_printed, RANDOM: run_printed,
           TRACE: trace_printed, TURNING: run_printed}


def printed(record):
    return PRINTED[record.call](record, record.port or FRESH)


# ---- what is tried

# the inputs that lead from a fresh port to each status
WAYS = {1: [], 2: [STARTED], 129: [STARTED, PRESSED], 132: [STARTED, FAILED], 4: [STARTED, FAILED, SEEN]}
PLUNGE = [("write", i, 10 * i + 7) for i in PARAMETERS]


def every_turn():
    """Every named input at every status that is reached, from a fresh port with a plunge written; and once more."""
    for way in WAYS.values():
        for given in (STARTED, SEEN, MENDED, PRESSED, FAILED, ("write", 3, 99)):
            add_steps(PLUNGE + way + [given, given])


def refusals():
    """Both refusals at every status that is reached, one after the other on the same port."""
    indices = ((0, 1), (6, 255), (7, 255), (8, 1), (2 ** 32 + 1, 1), (2 ** 63 + 2, 2), (2 ** 64 - 1, 3))
    others = [("write", index, value) for index, value in (*indices, (COMMAND, 0), (COMMAND, 4), (COMMAND, 255))]
    others += [("event", number) for number in (0, 3, 2 ** 32 - 1)]
    for way in WAYS.values():
        add_steps(PLUNGE + way + others)


def statuses():
    """All 256 statuses, the other bytes all different: every value to the eight bytes and to others, and events."""
    add(WRITES, port=filled(0), number=0, count=10)
    for index in (256, 257, 258, 65537, 2 ** 31, *range(2 ** 32, 2 ** 32 + 3), 2 ** 63, 2 ** 63 + 1, 2 ** 64 - 7,
                  2 ** 64 - 1):
        add(WRITES, port=filled(0), number=index)
    add(EVENT, port=filled(0), number=0, count=260)
    for number in EVENTS:
        if number >= 260:
            add(EVENT, port=filled(0), number=number)


def other_contents():
    """Commands and events at all statuses where all other bytes are 0, or 255, or the last command is a known one."""
    for port in (bytes(8), bytes([255] * 8), *(press_port.put(filled(0), {COMMAND: n}) for n in (1, 2, 3))):
        add(WRITES, port=port, number=COMMAND)
        add(EVENT, port=port, number=0, count=4)


def counts():
    """The count's carry and its end, from ports whose count was not brought there by turns; a fault counts nothing."""
    for first in (0, 254, 255, 256, 511, 32767, 65279, 65280, *range(LARGEST_COUNT - 3, LARGEST_COUNT + 1)):
        add_steps([STARTED, PRESSED, SEEN] * 4, port=filled(1, first))
        add_steps([FAILED, PRESSED, SEEN, MENDED], port=filled(2, first))


def full_count():
    """Turns from a fresh port until the count has stopped."""
    add(TURNING, count=3 * (LARGEST_COUNT + 12), every=3 * 4096)
    add(TURNING, port=filled(1, LARGEST_COUNT - 9), count=40, every=1)


def long_runs():
    """Random inputs: from a fresh port until the count has stopped; from others; at statuses that nothing leaves."""
    add(RANDOM, number=20080, count=1200000, every=20000)
    for i, status in enumerate(REACHED):
        add(RANDOM, port=filled(status, 13000 * i + 255), number=777 + i, count=20000, every=2000)
        add(RANDOM, port=filled(status, LARGEST_COUNT - 100 - i), number=4000000000 + i, count=10000, every=1000)
    for status in (0, 3, 5, 6, 128, 130, 131, 133, 255):
        add(RANDOM, port=filled(status), number=status, count=2000, every=1000)


def short_traces():
    """Up to two inputs, and parts of them, with outputs of every length up to three; each input would be accepted."""
    for length in range(2 * press_port.INPUT_BYTES + 1):
        for room in range(4):
            add_trace(traced([STARTED, PRESSED])[:length], room, port=filled(1))


def traced_turns():
    """Every named input at every status that is reached, as a trace with all that leads there, and by itself."""
    for way in WAYS.values():
        for more, given in enumerate((STARTED, SEEN, MENDED, PRESSED, FAILED, ("write", 3, 99))):
            add_traced(PLUNGE + way + [given, given], more=more)
    for status in (*REACHED, 0, 255):
        for given in (STARTED, SEEN, MENDED, PRESSED, FAILED):
            add_traced([given], port=filled(status))


def trace_bytes():
    """Who, what and value: known ones, and every value of each; an event's value changes nothing."""
    for who in (0, 1, 2, 255):
        for status, what, value in ((1, 1, 1), (2, 1, 1), (2, 2, 1), (2, 1, 0), (2, 1, 2), (2, 1, 255), (1, 2, 255)):
            add_trace(bytes([who, what, value]), 1, port=filled(status))
    add_trace(b"".join(bytes([who, 0, 7]) for who in range(256)), 256, port=filled(1))
    add_trace(b"".join(bytes([0, index, 9]) for index in range(256)), 256, port=filled(1))
    add_trace(b"".join(bytes([0, COMMAND, value]) for value in range(255, -1, -1)), 256, port=filled(4))
    add_trace(b"".join(bytes([1, number, 1]) for number in range(255, -1, -1)), 256, port=filled(2))


def rooms():
    """A trace whole and cut, with outputs of its inputs' number, one and more below it, one and more above it."""
    inputs = PLUNGE + [STARTED, PRESSED, SEEN]
    trace, many = traced(inputs), len(inputs)
    for cut in range(3):
        for room in (0, 1, many - 2, many - 1, many, many + 1, 40):
            add_trace(trace[:len(trace) - cut], room)
    long = traced([STARTED, PRESSED, SEEN] * 86)
    for trace, room in ((long, 257), (long, 258), (long[:-1], 1)):
        add_trace(trace, room)


def long_traces():
    """Random inputs: some hundred from a fresh port and at each status reached, fewer where nothing leaves a status."""
    for i, status in enumerate((None, *REACHED, 0, 3, 128, 255)):
        inputs = (given for given in random_inputs(31 * i) if given[1] < 256)
        port = None if status is None else filled(status, LARGEST_COUNT - 20 if i % 2 else 250)
        add_traced([given for given, _ in zip(inputs, range(50 if i > 5 else 250))], port, more=5 * i)


def main():
    explored()
    parts = (every_turn, refusals, statuses, other_contents, counts, full_count, long_runs, short_traces, traced_turns,
             trace_bytes, rooms, long_traces)
    sys.exit(int(stored("test_port", RECORDS, parts, packed, printed)))


if __name__ == "__main__":
    main()
