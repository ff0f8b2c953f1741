"""The press port, from the words of document 02's N7 alone: its table, one write, one event; and numbers worth trying.
A trace's bytes are from the words of include/haruseopda.h.

A port is its eight bytes. Its author had read the library's source, so it is another computation and not another team's
implementation.
"""
FRESH = bytes([1, 0, 0, 0, 0, 0, 0, 0])
STATUS, COMMAND, COUNT = 0, 1, 6
PARAMETERS = range(2, 6)        # column, row, reach, depth
DONE, FAULT = 1, 2              # the events' numbers
START, ACKNOWLEDGE, CLEAR = 1, 2, 3
LARGEST_COUNT = 65535
NO_SUCH_BYTE, NOT_NOW = 16, 17  # the refusals

# What turns a status, and into which.
TURNS = {
    ("command", START): {1: 2},
    ("event", DONE): {2: 129},
    ("event", FAULT): {2: 132},
    ("command", ACKNOWLEDGE): {129: 1, 132: 4},
    ("command", CLEAR): {4: 1},
}


# ---- the machine

def count(port):
    """Plunges done."""
    return port[COUNT] * 256 + port[COUNT + 1]


def put(port, changes):
    return bytes(changes.get(i, byte) for i, byte in enumerate(port))


def turned(port, name, number, changes):
    """The answer to a command or an event: 0 or the refusal, and the bytes after it."""
    after = TURNS.get((name, number), {}).get(port[STATUS])
    return (NOT_NOW, port) if after is None else (0, put(port, {STATUS: after, **changes}))


def write(port, index, value):
    if index == COMMAND:
        return turned(port, "command", value, {COMMAND: value})
    if index not in PARAMETERS:
        return NO_SUCH_BYTE, port
    return (0, put(port, {index: value})) if port[STATUS] == 1 else (NOT_NOW, port)


def event(port, number):
    more = min(LARGEST_COUNT, count(port) + 1)
    return turned(port, "event", number, {COUNT: more // 256, COUNT + 1: more % 256} if number == DONE else {})


def step(port, name, number, value=0):
    """The same of either: "write" with an index and a value, or "event" with its number."""
    return write(port, number, value) if name == "write" else event(port, number)


def limited(accepted, first=0):
    """The count after so many accepted events "done"."""
    return min(LARGEST_COUNT, first + accepted)


# ---- a trace

INPUT_BYTES = 3
CUT, SHORT = 6, 5               # the refusals of a run over a trace


def traced(inputs):
    """The bytes of inputs."""
    return b"".join(bytes([0, *given[1:]] if given[0] == "write" else [1, given[1], 0]) for given in inputs)


def inputs_of(trace):
    """The whole inputs of a trace: 0, index and value of a write; else an event's number and a byte not looked at."""
    for at in range(0, len(trace) - INPUT_BYTES + 1, INPUT_BYTES):
        who, what, value = trace[at:at + INPUT_BYTES]
        yield ("event", what) if who else ("write", what, value)


def run(port, trace, room):
    """A run with room for so many answers: 0 or the refusal, its place, the bytes after it, the answers' numbers."""
    whole, left = divmod(len(trace), INPUT_BYTES)
    if left:
        return CUT, len(trace) - left, port, b""
    if room < whole:
        return SHORT, whole, port, b""
    numbers = []
    for given in inputs_of(trace):
        number, port = step(port, *given)
        numbers.append(number)
    return 0, 0, port, bytes(numbers)


# ---- numbers worth trying

REACHED = (1, 2, 4, 129, 132)
# the ends of the bytes, and numbers that a cut to 8, 16 or 32 bits, or a sign, would make right
INDICES = (*range(12), 127, 128, 129, 255, *range(256, 264), 65535, *range(65536, 65544),
           *range(2 ** 31 - 1, 2 ** 31 + 7), *range(2 ** 32 - 1, 2 ** 32 + 8), *range(2 ** 63 - 1, 2 ** 63 + 8),
           *range(2 ** 64 - 8, 2 ** 64))
EVENTS = (*range(18), *range(127, 131), *range(255, 259), *range(65535, 65539), 2 ** 24 + 1,
          *range(2 ** 31 - 1, 2 ** 31 + 3), 2 ** 32 - 2, 2 ** 32 - 1)


def filled(status, number=0x0607):
    """A port whose other bytes all differ; the count is this number."""
    return bytes([status, 0xC1, 0xA2, 0xA3, 0xA4, 0xA5]) + number.to_bytes(2, "big")
