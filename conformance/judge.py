"""Makes calls, compares what comes back with what is expected, and keeps count."""
import numpy as np

from guard import UNTOUCHED, Blank, Desk, Free, plain

ANY = None    # in an expected answer: a number that is not looked at


class Judge:
    def __init__(self, calls, seed, note=None):
        self.calls, self.seed, self.note = calls, seed, note
        self.desk = Desk()
        self.counts = {}          # comparison: [how often, differences]
        self.extra = {}           # other numbers worth printing
        self.first = None         # the first difference, in full
        self.case, self.story = "", []

    def start(self, section, index, number, *story):
        """A new case; gives back its own random numbers, so that it can be run again alone."""
        self.case, self.story = f"{section}:{index}", list(story)
        return np.random.default_rng([self.seed, number, index])

    def tell(self, *story):
        """What the case is, for a difference's report: pairs of a word and a value."""
        self.story = list(story)

    def add(self, label, number=1):
        """Counts something that is only printed."""
        self.extra[label] = self.extra.get(label, 0) + number

    # ---- comparing

    def call(self, label, name, parts, answer, buffers=()):
        """Calls `name` and compares its numbers and every byte of the buffers that it may write.

        buffers: for each Blank among the parts the bytes it must start with, or Free; all bytes behind must be UNTOUCHED. For each
        Replaceable all its bytes.
        """
        if self.note is not None:
            line = f"{self.case} {label} {name}".encode()[:200]
            self.note[:201] = line.ljust(201, b"\0")
        outcome = self.desk.call(self.calls[name], parts)
        problem = outcome.strayed
        if not problem and any(want is not ANY and got != want for got, want in zip(outcome.answer, answer)):
            problem = "the answer's numbers differ"
        for number, (got, want) in enumerate(zip(outcome.blanks, buffers)):
            problem = problem or different(got, want, number)
        assert len(buffers) == len(outcome.blanks) and len(answer) == len(outcome.answer)
        self.count(label, problem, name, parts, answer, outcome, buffers)
        return outcome

    def same(self, label, outcome, buffers):
        """Compares the buffers of a call made before with another peer's."""
        problem = outcome.strayed
        for number, (got, want) in enumerate(zip(outcome.blanks, buffers)):
            problem = problem or different(got, want, number)
        self.count(label, problem, "", (), (), outcome, buffers)

    def count(self, label, problem, name, parts, answer, outcome, buffers):
        tally = self.counts.setdefault(label, [0, 0])
        tally[0] += 1
        if problem:
            tally[1] += 1
            if self.first is None:
                self.first = self.report(label, problem, name, parts, answer, outcome, buffers)

    def report(self, label, problem, name, parts, answer, outcome, buffers):
        lines = [f"comparison: {label}", f"case: {self.case}, seed {self.seed} (run it alone: --only {self.case} --seed {self.seed})",
                 f"problem: {problem}"]
        lines += [f"{word}: {value.hex(' ') if isinstance(value, bytes) else value}" for word, value in self.story]
        if name:
            lines.append(f"call: {name}")
            for part in parts:
                lines.append("  " + (f"bytes ({len(part)}): {part.hex(' ')}" if isinstance(part, bytes)
                                     else f"buffer of {int(part)}" if isinstance(part, Blank) else f"{spelled(part)}"))
        lines += [f"wanted numbers: {answer}", f"got numbers:    {outcome.answer}"]
        for number, (got, want) in enumerate(zip(outcome.blanks, buffers)):
            text = f"{int(want)} bytes of anything" if isinstance(want, Free) else want.hex(" ")
            lines += [f"buffer {number} wanted: {text}, then {UNTOUCHED:02x}", f"buffer {number} got:    {got.hex(' ')}"]
        return "\n".join(lines)


def spelled(part):
    return [plain(getattr(part, name)) for name, _ in part._fields_] if hasattr(part, "_fields_") else part


def different(got, want, number):
    if isinstance(want, Free):
        free, same = int(want), True
    else:
        free, same = len(want), got[:len(want)] == want
    if not same:
        first = next((i for i, (a, b) in enumerate(zip(got, want)) if a != b), min(len(got), len(want)))
        return f"buffer {number} differs from byte {first} on"
    if got[free:].count(UNTOUCHED) != len(got) - min(free, len(got)):
        return f"buffer {number} was written past the answer, or though the call refused"
    return None
