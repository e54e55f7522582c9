"""Circuits in the text form of documents 01 and 02, for generate, compare and convert."""

import random

END = b"(end)\n"
LONGEST_JOB = 32_768
MOST_INPUTS = 32
MOST_GATES = 96
MOST_OUTPUTS = 32
MOST_WEIGHT = 64
POLICIES = ("basic", "naive", "span")
TABLES = ("one", "many")


class Draw:
    """Drawn numbers that depend on the seed alone, in every version of Python."""

    def __init__(self, seed):
        self._source = random.Random(seed)

    def below(self, count):
        """A number from 0 to count - 1."""
        return (self._source.getrandbits(32) * count) >> 32

    def between(self, first, last):
        return first + self.below(last - first + 1)

    def chance(self, percent):
        return self.below(100) < percent

    def choice(self, things):
        return things[self.below(len(things))]

    def weighted(self, *pairs):
        """One of (weight, thing), as often as its weight says."""
        place = self.below(sum(weight for weight, _ in pairs))
        for weight, thing in pairs:
            if place < weight:
                return thing
            place -= weight
        raise AssertionError

    def shuffled(self, things):
        things = list(things)
        for last in range(len(things) - 1, 0, -1):
            other = self.below(last + 1)
            things[last], things[other] = things[other], things[last]
        return things

    def sample(self, things, count):
        return self.shuffled(things)[:count]


class Settings:
    def __init__(self, p=4, m=8, t=10, norm=None, policy="span", tables="one"):
        self.p, self.m, self.t = p, m, t
        self.norm, self.policy, self.tables = norm, policy, tables

    def copy(self, **changes):
        result = Settings(**vars(self))
        for name, value in changes.items():
            setattr(result, name, value)
        return result

    def line(self):
        norm = "none" if self.norm is None else self.norm
        return f"(fbs {self.p} {self.m} {self.t} {norm} {self.policy} {self.tables})"


def wire_text(wire):
    """A wire is a node number, or "0" or "1" for a constant."""
    return f"(k {wire})" if isinstance(wire, str) else f"(n {wire})"


def input_text(name, weight):
    return f"(in {name})" if weight == 1 else f"(in {name} {weight})"


class Circuit:
    """Inputs are names, each with the weight at its place in `weights`; a gate is (name, bits, wires); an output
    (name, wire)."""

    def __init__(self, settings=None, inputs=(), gates=(), outputs=(), weights=None):
        self.settings = settings or Settings()
        self.inputs = list(inputs)
        self.gates = list(gates)
        self.outputs = list(outputs)
        self.weights = [1] * len(self.inputs) if weights is None else list(weights)

    def copy(self):
        return Circuit(self.settings.copy(), self.inputs, self.gates, self.outputs, self.weights)

    @property
    def nodes(self):
        return len(self.inputs) + len(self.gates)

    def input(self, name=None, weight=1):
        """Add an input; its node."""
        assert not self.gates
        self.inputs.append(name or f"i{len(self.inputs)}")
        self.weights.append(weight)
        return len(self.inputs) - 1

    def gate(self, bits, *wires, name=None):
        """Add a gate; its node."""
        self.gates.append((name or f"g{len(self.gates)}", bits, tuple(wires)))
        return self.nodes - 1

    def output(self, wire, name=None):
        self.outputs.append((name or f"o{len(self.outputs)}", wire))

    def room(self):
        return MOST_GATES - len(self.gates)

    def lines(self):
        lines = [self.settings.line()]
        lines += [input_text(*both) for both in zip(self.inputs, self.weights, strict=True)]
        for name, bits, wires in self.gates:
            lines.append(f"(gate {name} {bits}{''.join(' ' + wire_text(wire) for wire in wires)})")
        lines += [f"(out {name} {wire_text(wire)})" for name, wire in self.outputs]
        return lines

    def text(self):
        return "".join(line + "\n" for line in self.lines()).encode()


def _wires(words):
    """Wires from words such as `(n`, `3)`, or None."""
    if len(words) % 2:
        return None
    wires = []
    for kind, value in zip(words[::2], words[1::2]):
        if not value.endswith(")"):
            return None
        value = value[:-1]
        if kind == "(n" and value.isdigit() and len(value) < 6:
            wires.append(int(value))
        elif kind == "(k" and value in ("0", "1"):
            wires.append(value)
        else:
            return None
    return wires


def parse(text):
    """The circuit of a text that was written by Circuit.text, else None.

    This is for shrinking and counting only; it judges nothing."""
    try:
        lines = text.decode("ascii").split("\n")
    except UnicodeDecodeError:
        return None
    if not lines or lines.pop() != "":
        return None
    circuit = None
    for line in lines:
        if not (line.startswith("(") and line.endswith(")")):
            return None
        words = line[1:-1].split(" ")
        kind, words = words[0], words[1:]
        if circuit is None:
            settings = parse_settings(line)
            if settings is None:
                return None
            circuit = Circuit(settings)
        elif kind == "in" and len(words) in (1, 2):
            if circuit.gates or circuit.outputs or not all(word.isdigit() and len(word) < 6 for word in words[1:]):
                return None
            circuit.input(words[0], *map(int, words[1:]))
        elif kind == "gate" and len(words) >= 2:
            wires = _wires(words[2:])
            if wires is None or circuit.outputs:
                return None
            circuit.gates.append((words[0], words[1], tuple(wires)))
        elif kind == "out" and len(words) == 3:
            wires = _wires(words[1:])
            if wires is None:
                return None
            circuit.outputs.append((words[0], wires[0]))
        else:
            return None
    if circuit is None or circuit.text() != text:
        return None
    return circuit


def parse_settings(line):
    words = line[1:-1].split(" ")
    if len(words) != 7 or words[0] != "fbs":
        return None
    numbers = words[1:4] + ([] if words[4] == "none" else [words[4]])
    if not all(word.isdigit() and len(word) < 6 for word in numbers):
        return None
    if words[5] not in POLICIES or words[6] not in TABLES:
        return None
    p, m, t = (int(word) for word in words[1:4])
    norm = None if words[4] == "none" else int(words[4])
    settings = Settings(p, m, t, norm, words[5], words[6])
    return settings if settings.line() == line else None


def split_jobs(stream):
    """The jobs of a stream in the service form, each without its `(end)` line,
    and the bytes behind the last `(end)`."""
    jobs = []
    start = place = 0
    while True:
        newline = stream.find(b"\n", place)
        if newline < 0:
            return jobs, stream[start:]
        if stream[place : newline + 1] == END:
            jobs.append(stream[start:place])
            start = newline + 1
        place = newline + 1
