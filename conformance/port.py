"""Comparisons of the press port with the machine of tests/press_port.py: writes, events, runs of both, and traces."""
import os
import sys

from guard import Blank
from library import Port

sys.path.append(os.path.join(os.path.dirname(os.path.abspath(__file__)), "..", "tests"))
import press_port  # noqa: E402

LABELS = {0: "accepted", 5: "short output", 6: "cut", 16: "no such byte", 17: "not at this status"}
USUAL = [("write", 1, 1), ("event", 1), ("write", 1, 2), ("event", 2), ("write", 1, 3)]


# ---- one input

def compare_input(judge, label, port, wanted, name, number, value=0):
    """The library's answer, of which `wanted` is the number and the bytes; a refusal's place is 0."""
    if name == "write":
        parts, call = [Port.from_buffer_copy(port), number, value], "haru_port_write"
    else:
        parts, call = [Port.from_buffer_copy(port), number], "haru_port_event"
    return judge.call(label, call, parts, (wanted[0], 0, wanted[1]))


def compare_step(judge, port, *given):
    wanted = press_port.step(port, *given)
    compare_input(judge, f"port {given[0]}s, {LABELS[wanted[0]]}", port, wanted, *given)


# ---- every status

def compare_status(judge, rng, status):
    """A status, with bytes that differ and with random ones: every value to the first bytes, some to others; events."""
    for port in (press_port.filled(status), bytes([status]) + rng.bytes(7)):
        for index in range(9):
            for value in range(256):
                compare_step(judge, port, "write", index, value)
        for index in press_port.INDICES:
            for value in (0, 1, 2, 3, 4, 255, int(rng.integers(256))):
                compare_step(judge, port, "write", index, value)
        for number in press_port.EVENTS:
            compare_step(judge, port, "event", number)
        compare_step(judge, port, "event", int(rng.integers(1 << 32)))
    for number in (0, 254, 255, 256, 511, 65279, 65280, *range(65532, 65536), int(rng.integers(65536))):
        for event in range(4):
            compare_step(judge, press_port.filled(status, number), "event", event)


# ---- runs

def some_input(rng):
    """Mostly what turns a status; else any write or event."""
    way = rng.integers(8)
    if way < 5:
        return USUAL[way]
    if way == 5:
        return "event", int(rng.choice(press_port.EVENTS))
    index = press_port.INDICES[rng.integers(len(press_port.INDICES))] if way == 6 else int(rng.integers(8))
    return "write", index, int(rng.integers(256))


def compare_run(judge, first, inputs):
    """A run: each input on the bytes that the library gave back, the machine on its own; and the count at its end."""
    got, wanted, accepted = first, first, 0
    for given in inputs:
        number, wanted = press_port.step(wanted, *given)
        outcome = compare_input(judge, "port runs", got, (number, wanted), *given)
        accepted += given == ("event", press_port.DONE) and outcome.answer[0] == 0
        got = outcome.answer[2]
    judge.add("port events \"done\" accepted in runs", accepted)
    limit = press_port.limited(accepted, press_port.count(first))
    problem = None if press_port.count(got) == limit else f"the count is {press_port.count(got)} and not {limit}"
    judge.count("port runs, the count", problem, "", (), (0, 0, wanted), outcome, ())


def compare_fresh(judge):
    """The bytes of a fresh port; and turns from it until the count has stopped."""
    fresh = judge.call("fresh port", "haru_fresh_port", [], (press_port.FRESH,)).answer[0]
    compare_run(judge, fresh, USUAL[:3] * (press_port.LARGEST_COUNT + 5))


def some_ports(rng):
    """A fresh port, ports of any count and with a count near its end, and one of any bytes."""
    ports = [press_port.FRESH] + [press_port.filled(status, int(rng.integers(65536))) for status in press_port.REACHED]
    ports += [press_port.filled(status, 65535 - int(rng.integers(60))) for status in press_port.REACHED]
    return [*ports, rng.bytes(8)]


def compare_runs(judge, rng, many):
    """Random inputs, one by one."""
    for port in some_ports(rng):
        judge.tell(("a run from", port))
        compare_run(judge, port, [some_input(rng) for _ in range(many)])


# ---- traces

def compare_trace(judge, port, trace, room):
    """A run over a trace, with an output of so many bytes: the answer, and every byte of the output."""
    number, place, after, numbers = press_port.run(port, trace, room)
    parts = [Port.from_buffer_copy(port), trace, Blank(room)]
    judge.call(f"port traces, {LABELS[number]}", "haru_port_run", parts, (number, place, after), [numbers])


def some_bytes(rng):
    """Three bytes of a trace: mostly what turns a status, with a press of any number but 0; else any three."""
    who, what, value = rng.bytes(3)
    way = rng.integers(8)
    if way < len(USUAL):
        name, number, *rest = USUAL[way]
        return bytes([0, number, *rest] if name == "write" else [who or 1, number, value])
    return bytes([who % 2, what % 9, value] if way < 7 else [who, what, value])


def compare_rooms(judge, rng, port, trace):
    """A trace whole and cut, with outputs that are short, of its inputs' number, and longer."""
    whole = len(trace) // press_port.INPUT_BYTES
    for cut in range(3):
        for room in {0, whole // 2, max(0, whole - 1), whole, whole + 1, whole + int(rng.integers(2, 300))}:
            compare_trace(judge, port, trace[:max(0, len(trace) - cut)], room)


def compare_traces(judge, rng, many):
    """Traces of few and of some hundred inputs, from the ports that runs begin with."""
    for port in some_ports(rng):
        for _ in range(many):
            trace = b"".join(some_bytes(rng) for _ in range(rng.integers(400) if rng.integers(2) else rng.integers(8)))
            compare_rooms(judge, rng, port, trace)


def compare_every_byte(judge, rng):
    """Every value of each of the three bytes at each status that is reached, the two others such as do something."""
    for port in (press_port.filled(status, int(rng.integers(65536))) for status in press_port.REACHED):
        for n in range(256):
            for three in ((n, 1, 1), (n, 1, 2), (n, 2, 3), (0, n, 1), (0, 1, n), (1, n, 1), (255, 1, n), (2, 2, n)):
                compare_trace(judge, port, bytes(three), 1)


def compare_long_traces(judge, rng):
    """Turns from a fresh port until the count has stopped, and random inputs; numbers and places past two bytes."""
    turns = press_port.traced(USUAL[:3] * (press_port.LARGEST_COUNT + 5))
    compare_rooms(judge, rng, press_port.FRESH, turns)
    compare_rooms(judge, rng, press_port.FRESH, b"".join(some_bytes(rng) for _ in range(70000)))
