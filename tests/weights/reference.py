#!/usr/bin/env python3
"""A plain mapper with weights, to hold the Rust's answers to: tests/weights/reference.py < circuits > answers

It is written from documents 01 and 02 and the definition in crates/rules/specs, shares no code with the Rust or the port,
and goes over all rows and all pairs. Texts are read by the script of tests/texts."""

import math
import pathlib
import sys

sys.dont_write_bytecode = True

sys.path.insert(1, str(pathlib.Path(__file__).resolve().parents[2] / "tools"))

import script
from circuits import END, LONGEST_JOB, split_jobs

texts = script.load("tests/texts/make")


class Refused(Exception):
    """By a number."""


def values(coefs):
    """The value at each assignment, the first source the highest bit."""
    rows = [0]
    for coef in reversed(coefs):
        rows += [coef + value for value in rows]
    return rows


def span_of(coefs):
    return 1 + sum(map(abs, coefs))


def completions(p, known):
    """Unknowns 0, then 1, then each opposite to its partner, both unknown 0 and 1, unpaired 0."""
    for fill in (0, 1):
        yield [fill if bit is None else bit for bit in known]
    opposed = list(known)
    for low in range(len(known) - p):
        for place, partner, both in ((low, low + p, 0), (low + p, low, 1)):
            if known[place] is None:
                opposed[place] = both if known[partner] is None else 1 - known[partner]
    yield [bit or 0 for bit in opposed]


def is_rotation(p, bits):
    """Every pair (i, i + P) has one common sum."""
    return len({low + high for low, high in zip(bits, bits[p:])}) <= 1


def normalised(coefs):
    """Divided by their gcd, the first one not 0 positive."""
    divisor = max(1, math.gcd(*coefs))
    first = next((coef for coef in coefs if coef), 1)
    return [coef // (divisor if first > 0 else -divisor) for coef in coefs]


class Cone:
    """Sources, a coefficient each, a bit for each assignment."""

    def __init__(self, support, coefs, truth):
        self.support, self.coefs, self.truth = tuple(support), tuple(coefs), tuple(truth)

    def bit(self, assignment):
        row = 0
        for node in self.support:
            row = 2 * row + assignment.get(node, 0)
        return self.truth[row]

    def coef(self, node):
        return self.coefs[self.support.index(node)] if node in self.support else 0


def constant(bit):
    return Cone((), (), (bit,))


def identity(node):
    return Cone((node,), (1,), (0, 1))


def over_rows(support, bit):
    """A bit for each assignment of the support."""
    for row in range(1 << len(support)):
        yield bit({node: row >> (len(support) - 1 - place) & 1 for place, node in enumerate(support)})


# The mapper. A node is ("in", name, weight), ("lin", constant, terms) or ("boot", node, bits), a term (coefficient, node).


class Mapper:
    def __init__(self, circuit):
        self.policy, self.many = circuit.fbs[4], circuit.fbs[5] == b"many"
        self.p, self.m, self.t = map(int, circuit.fbs[:3])
        self.norm = texts.limit(circuit.fbs[3])
        if self.policy == b"basic":
            self.p, self.m = 2, 2 if self.m == self.p else 4
        self.nodes = [("in", name, weight) for name, weight in zip(circuit.ins, circuit.weights)]
        self.cones = [identity(node) for node in range(len(self.nodes))]
        self.named = {node for _, part in circuit.outs for kind, node in texts.wires(part) if kind == b"n"}

    def weight(self, node):
        kind, _, weight = self.nodes[node]
        return weight if kind == "in" else 1

    def norm_of(self, coefs, support):
        return sum(coef * coef * self.weight(node) for coef, node in zip(coefs, support))

    def is_over(self, norm):
        return self.norm is not None and norm > self.norm

    def size(self, cone):
        """Its span, then its norm."""
        return span_of(cone.coefs), self.norm_of(cone.coefs, cone.support)

    def table(self, coefs, truth):
        """The first completion of at most M bits that a rotation gives, None where there is none."""
        if span_of(coefs) > self.m:
            return None
        known = [None] * span_of(coefs)
        least = sum(coef for coef in coefs if coef < 0)
        for value, bit in zip(values(coefs), truth):
            if known[value - least] not in (None, bit):
                return None
            known[value - least] = bit
        return next((bits for bits in completions(self.p, known) if is_rotation(self.p, bits)), None)

    def fits(self, cone):
        return not self.is_over(self.size(cone)[1]) and self.table(cone.coefs, cone.truth) is not None

    def validated(self, cone):
        assert self.table(cone.coefs, cone.truth) is not None  # so never 10
        if self.is_over(self.size(cone)[1]):
            raise Refused(8)
        return cone

    def node(self, node):
        """The number of that node, which is appended where it is new."""
        if node not in self.nodes:
            self.nodes.append(node)
        return self.nodes.index(node)

    def sum_of(self, cone):
        terms = list(zip(cone.coefs, cone.support))
        if self.many:
            terms = sorted((term for term in terms if term[0]), key=lambda term: term[1])
        return "lin", -min(values(cone.coefs)), tuple(terms)

    def bootstrapped_sums(self):
        return [self.nodes[node[1]] for node in self.nodes if node[0] == "boot"]

    def realigned(self, cone):
        """By the first form of least span and norm of a bootstrapped sum of these sources."""
        forms = []
        for _, _, terms in self.bootstrapped_sums() if self.many else ():
            by_node = {node: coef for coef, node in terms}
            if set(by_node) == set(cone.support):
                forms.append(Cone(cone.support, [by_node[node] for node in cone.support], cone.truth))
        return min(filter(self.fits, forms), key=self.size, default=cone)

    def bootstrap(self, cone):
        if len(cone.support) <= 1:
            return cone
        cone = self.realigned(cone)
        table = self.table(cone.coefs, cone.truth)
        return identity(self.node(("boot", self.node(self.sum_of(cone)), tuple(table))))

    def pairs(self, left, right):
        """Scale pairs, by the spans of both sides."""
        if self.policy == b"naive":
            return [(right, 1)]
        tried = ((a, b) for a in range(right + 1) for b in range(-left, left + 1))
        return [(a, b) for a, b in tried if math.gcd(a, b) == 1 and (a > 0 or b > 0)]

    def composed(self, left, right, bits):
        """The cone of a gate on two cones, None where there is no composition."""
        support = left.support + tuple(node for node in right.support if node not in left.support)
        if len(support) > self.t + 1:
            return None
        truth = tuple(over_rows(support, lambda row: bits[2 * left.bit(row) + right.bit(row)]))
        if len(set(truth)) == 1:
            return constant(truth[0])
        best = None
        for a, b in self.pairs(span_of(left.coefs), span_of(right.coefs)):
            cone = Cone(support, normalised([a * left.coef(node) + b * right.coef(node) for node in support]), truth)
            if not self.fits(cone):
                continue
            fresh = not (self.many and self.sum_of(cone) in self.bootstrapped_sums())
            # Document 02's order: reuse, span, norm, energy, a, b.
            score = (fresh, *self.size(cone), sum(value * value for value in values(cone.coefs)), a, b)
            best = min(best or (score, cone), (score, cone), key=lambda scored: scored[0])
        if best is None:
            return None
        used = [(coef, node) for coef, node in zip(best[1].coefs, support) if coef]
        kept = [node for _, node in used]
        return self.validated(Cone(kept, [coef for coef, _ in used], over_rows(kept, best[1].bit)))

    def binary(self, sides, bits):
        """The gate's cone; `sides` has the two cones as they are left. They are switched with the gate's answers."""
        first, second = (0, 1) if self.size(sides[0]) >= self.size(sides[1]) else (1, 0)
        compose = lambda: self.composed(sides[first], sides[second], bits if first == 0 else [bits[0], bits[2], bits[1], bits[3]])
        too_many = lambda: len({*sides[0].support, *sides[1].support}) > self.t
        if too_many():
            sides[first] = self.bootstrap(sides[first])
            first, second = second, first
            if too_many():
                sides[first] = self.bootstrap(sides[first])
        for side in (None, first, second):
            if side is not None:
                sides[side] = self.bootstrap(sides[side])
            cone = compose()
            if cone is not None:
                return cone
        raise Refused(9)

    def unary(self, cone, bits):
        truth = [bits[bit] for bit in cone.truth]
        return constant(truth[0]) if len(set(truth)) == 1 else self.validated(Cone(cone.support, cone.coefs, truth))

    def cone(self, wire):
        kind, number = wire
        return self.cones[number] if kind == b"n" else constant(number)

    def gate(self, bits, wires):
        sides = [self.cone(wire) for wire in wires]
        if len(sides) == 1:
            cone = self.unary(sides[0], bits)
        elif not sides[0].support:
            cone = self.unary(sides[1], bits[2 * sides[0].truth[0] :][:2])
        elif not sides[1].support:
            cone = self.unary(sides[0], [bits[sides[1].truth[0]], bits[2 + sides[1].truth[0]]])
        else:
            cone = self.binary(sides, bits)
            for (_, number), side in zip(wires, sides):
                self.cones[number] = side
        if self.policy == b"basic" or (not self.many and len(self.cones) in self.named):
            cone = self.bootstrap(cone)
        self.cones.append(cone)

    def output(self, wire):
        cone = self.bootstrap(self.cone(wire))
        if not cone.support:
            return "k", cone.truth[0]
        (node,) = cone.support
        return "n", node if cone.truth[0] == 0 else self.node(("lin", 1, ((-1, node),)))

    def live(self, outs):
        wanted = {number for kind, number in outs if kind == "n"}
        for number in reversed(range(len(self.nodes))):
            kind, source, more = self.nodes[number]
            if number in wanted:
                wanted |= {node for _, node in more} if kind == "lin" else {source} if kind == "boot" else set()
        return sorted(wanted)

    def node_norm(self, node):
        kind, _, more = node
        return self.norm_of(*zip(*more)) if kind == "lin" else more if kind == "in" else 1

    def network(self, names, outs):
        kept = self.live(outs)
        if self.policy == b"basic" and any(self.is_over(self.node_norm(self.nodes[number])) for number in kept):
            raise Refused(8)
        new = {number: place for place, number in enumerate(kept)}
        lines = [f"(net {self.p} {self.m} {'none' if self.norm is None else self.norm})"]
        for kind, first, more in map(self.nodes.__getitem__, kept):
            if kind == "in":
                lines.append(f"(in {first.decode()})" if more == 1 else f"(in {first.decode()} {more})")
            elif kind == "lin":
                lines.append(f"(lin {first}{''.join(f' ({coef} {new[node]})' for coef, node in more)})")
            else:
                lines.append(f"(boot {new[first]} {''.join(map(str, more))})")
        for name, (kind, number) in zip(names, outs):
            lines.append(f"(out {name.decode()} ({kind} {new[number] if kind == 'n' else number}))")
        return "".join(line + "\n" for line in lines).encode()


def answer(text):
    """The answer to a circuit's text, without its `(end)`."""
    if len(text) > LONGEST_JOB:
        return b"(no 3 0)\n"
    circuit, refused = texts.read(text, texts.Circuit, 7)
    if refused:
        return b"(no %d %d)\n" % (refused[0][0], refused[1])
    mapper, line = Mapper(circuit), 0
    try:
        for line, bits, part in circuit.gates:
            mapper.gate([int(bit) for bit in bits.decode()], texts.wires(part))
        line = 0
        return mapper.network([name for name, _ in circuit.outs], [mapper.output(texts.wires(part)[0]) for _, part in circuit.outs])
    except Refused as reason:
        return b"(no %d %d)\n" % (reason.args[0], line)


if __name__ == "__main__":
    for text in split_jobs(sys.stdin.buffer.read())[0]:
        sys.stdout.buffer.write(answer(text) + END)
