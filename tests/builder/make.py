#!/usr/bin/env python3
"""Cases for the table builder, with the replies that document 01 asks for and the centres of document 02, S-10.

Written from documents 01 and 02; it shares no code with the crates.
  make.py           writes crates/vectors_builder/stdin and stdout
  make.py --check   says whether the two files are what it would write
A case is a line: P, M, the buffer's length, the count of values and the values, the count of truths and the truths.
Its reply is a line: the number, the count of bits written, the centre, and the buffer, which held the letters a, b, .. before.
"""
import itertools
import pathlib
import random
import sys

sys.dont_write_bytecode = True

REPOSITORY = pathlib.Path(__file__).resolve().parents[2]
FILES = REPOSITORY / "crates" / "vectors_builder"
sys.path.insert(1, str(REPOSITORY / "tools"))

import stored

MIN, MAX = -(2**31), 2**31 - 1

# tables answered whose centre is not the least of the sums that remained
NOT_THE_LEAST = []


def constants(bits, P):
    """The whole numbers c for which there are s(0)..s(P-1) with 2 x bit(v) = c + s(v) for v < P and c - s(v - P) from P on."""
    if len(bits) > 2 * P:
        return []
    halves = [(c, [2 * b - c for b in bits[:P]]) for c in range(-4, 5)]
    return [c for c, s in halves if all(2 * bits[v] == c - s[v - P] for v in range(P, len(bits)))]


def possible(bits, P):
    return constants(bits, P) != []


def centre(bits, P):
    """0 for at most P bits; of a table with pairs there is one such c, which every pair has as its sum."""
    if len(bits) <= P:
        return 0
    (c,) = constants(bits, P)
    assert all(bits[i] + bits[i + P] == c for i in range(len(bits) - P)) and c in (0, 1, 2)
    return c


def completions(entries, P):
    """Unknowns 0, then 1, then each unknown opposite to its partner, both unknown 0 and 1, unpaired 0."""
    yield [0 if e is None else e for e in entries]
    yield [1 if e is None else e for e in entries]
    third = list(entries)
    for low in range(P):
        high = low + P
        if high < len(third):
            if third[low] is None and third[high] is None:
                third[low], third[high] = 0, 1
            elif third[low] is None:
                third[low] = 1 - third[high]
            elif third[high] is None:
                third[high] = 1 - third[low]
    yield [0 if e is None else e for e in third]


def sums_left(entries, P):
    """The sums that some bits for the unknowns give each pair, as far as they go for all pairs."""
    left = {0, 1, 2}
    bits = [(0, 1) if e is None else (e,) for e in entries]
    for low, high in zip(bits, bits[P:]):
        left &= {a + b for a in low for b in high}
    return left


def any_completion(entries, P):
    """By trial of all bits, to see that three completions are enough."""
    return any(
        possible(bits, P) for bits in itertools.product(*[(0, 1) if e is None else (e,) for e in entries])
    )


def reply(P, M, room, values, truths):
    """The number, the bits and the centre."""
    if not (2 <= P <= 16 and P <= M <= 2 * P):
        return 2, [], 0
    if len(values) != len(truths) or not values:
        return 30, [], 0
    span = max(values) - min(values) + 1
    if span > M:
        return 31, [], 0
    entries = [None] * span
    for value, truth in zip(values, truths):
        at = value - min(values)
        if truth not in (0, 1) or entries[at] not in (None, truth):
            return 32, [], 0
        entries[at] = truth
    table = next((bits for bits in completions(entries, P) if possible(bits, P)), None)
    if span <= 8:
        assert (table is not None) == any_completion(entries, P)
    if table is None:
        return 33, [], 0
    if room < span:
        return 34, [], 0
    if span > P and centre(table, P) != min(sums_left(entries, P)):
        NOT_THE_LEAST.append(table)
    return 0, table, centre(table, P)


def exhaustive():
    """P = 2: every list of one or two rows with values 0..4, of three rows with values 0..3, and all truths of four rows."""
    for M, longest in ((2, 2), (3, 2), (4, 3)):
        for n in range(1, longest + 1):
            for values in itertools.product(range(5 if n < 3 else 4), repeat=n):
                for truths in itertools.product((0, 1, 2) if n < 3 else (0, 1), repeat=n):
                    yield 2, M, 5, list(values), list(truths)
    for truths in itertools.product((0, 1), repeat=4):
        yield 2, 4, 4, [0, 1, 2, 3], list(truths)


def settings():
    for P in list(range(19)) + [9999999999999999999]:
        for M in sorted({0, 1, max(P - 1, 0), P, P + 1, 2 * P, 2 * P + 1, 32, 33}):
            if M < 10**19:
                yield P, M, 2, [7], [1]


def shapes():
    """Lengths that differ, no rows, the ends of the values' range, buffers of every length around the span."""
    for values, truths in (([], []), ([], [0]), ([0], []), ([0, 1], [0]), ([0], [0, 1])):
        yield 4, 8, 3, values, truths
        yield 4, 9, 3, values, truths
    for values in ([MIN], [MAX], [MIN, MAX], [MAX, MIN], [MIN, -1], [0, MAX], [MIN, MIN + 7], [MAX, MAX - 7], [MIN, MIN + 8], [-4, 3], [-5, 3], [MIN, 0, MAX]):
        yield 4, 8, 9, values, [1, 0, 1][: len(values)]
    for room in range(7):
        yield 3, 6, room, [0, 3, 5], [0, 1, 0]
        yield 2, 4, room, [0, 1, 2, 3], [0, 0, 0, 1]
        yield 2, 4, room, [-1, -1], [0, 1]
    yield 2, 2, 2, [0, 1], [0, 255]
    yield 2, 2, 2, [5] * 64, [1] * 64
    yield 2, 2, 2, [5] * 64, [1] * 63 + [0]


def table(rng, P, length):
    """Bits that a rotation gives."""
    total = rng.randrange(3)
    bits = [rng.randrange(2) for _ in range(length)]
    for i in range(max(length - P, 0)):
        first = rng.randrange(2) if total == 1 else total // 2
        bits[i], bits[i + P] = first, total - first
    return bits


def random_cases(rng, count):
    for _ in range(count):
        P = rng.randint(2, 16)
        M = rng.randint(P, 2 * P)
        length = rng.randint(max(1, M - 6), M) if rng.random() < 0.7 else rng.randint(1, M)
        bits = table(rng, P, length)
        low = rng.choice([0, -length // 2, rng.randint(-40, 40), rng.randint(MIN, MAX - 40)])
        places = {0, length - 1} | {v for v in range(length) if rng.random() < rng.choice((0.3, 0.6, 1))}
        places = sorted(places) + [rng.choice(sorted(places)) for _ in range(rng.randrange(3))]
        rng.shuffle(places)
        values = [low + v for v in places]
        truths = [bits[v] for v in places]
        room = rng.choice([length, length + 3, min(40, 2 * length), max(length - 1, 0), 0, 40])
        damage = rng.randrange(8)
        at = rng.randrange(len(truths))
        if damage == 0:
            truths[at] = 1 - truths[at]
        if damage == 1:
            truths[at] = rng.choice((2, 3, 255))
        if damage == 2:
            values[at] = min(MAX, max(MIN, values[at] + rng.choice((-1, 1)) * rng.randint(1, 2 * P)))
        if damage == 3 and rng.random() < 0.3:
            truths.pop()
        yield P, M, room, values, truths


def centres(rng):
    """Ends of a table, of P bits, P + 1 and 2P, for every P; truths 1 alone, where the sums 1 and 2 remain; buffers that are too short."""
    for P in range(2, 17):
        for length in (P, P + 1, 2 * P):
            for truths in ([1, 1], [0, 1]):
                yield P, 2 * P, length, [0, length - 1], truths
    for room in (0, 5, 6, 7):
        yield 3, 6, room, [0, 5], [1, 1]
    for _ in range(60):
        P = rng.randint(3, 7)
        length = rng.randint(P + 2, 2 * P)
        places = sorted({0, length - 1} | {rng.randrange(length) for _ in range(rng.randrange(3))})
        yield P, 2 * P, length, places, [1] * len(places)


def cases():
    yield from exhaustive()
    yield from settings()
    yield from shapes()
    yield from random_cases(random.Random(1), 420)
    yield from centres(random.Random(2))


def files():
    asked, answered, seen = [], [], {}
    for P, M, room, values, truths in cases():
        number, bits, c = reply(P, M, room, values, truths)
        seen[number] = seen.get(number, 0) + 1
        letters = "".join(chr(ord("a") + i % 26) for i in range(room))
        asked.append(" ".join(map(str, [P, M, room, len(values), *values, len(truths), *truths])))
        answered.append(f"{number} {len(bits)} {c} " + "".join(map(str, bits)) + letters[len(bits) :])
    stdin, stdout = "\n".join(asked) + "\n", "\n".join(answered) + "\n"
    assert len(stdin) < 65536, len(stdin)
    assert len(NOT_THE_LEAST) > 40, len(NOT_THE_LEAST)
    return {"stdin": stdin, "stdout": stdout}, len(asked), seen


def main():
    made, count, seen = files()
    if sys.argv[1:] == ["--check"]:
        stored.check({FILES / name: text.encode() for name, text in made.items()})
        return
    for name, text in made.items():
        (FILES / name).write_text(text)
    print(count, "cases:", dict(sorted(seen.items())))


main()
