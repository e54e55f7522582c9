"""Circuits with weights by hand, each with what it shows and what its answer has to be."""

# Mapped; to the network of all weights 1, but for the weights in the text; to another one.
MAPPED, ALIKE, OTHERWISE = "mapped", "alike", "otherwise"


def no(number, line):
    return b"(no %d %d)\n" % (number, line)


def wire(word):
    return f"(k {word[1]})" if word.startswith("k") else f"(n {word})"


def circuit(settings, inputs, gates, outputs):
    """Inputs as `a b:2`, a gate as `0001 0 1` or `0001 0 k1`, outputs as `2 k0`."""
    lines = [f"(fbs {settings})"]
    lines += [f"(in {word.replace(':', ' ')})" for word in inputs.split()]
    for bits, *wires in map(str.split, gates):
        lines.append(f"(gate g {bits}{''.join(' ' + wire(word) for word in wires)})")
    lines += [f"(out y {wire(word)})" for word in outputs.split()]
    return "".join(line + "\n" for line in lines).encode()


AB, THREE = ["0001 0 1"], "a:3 b:2 c:64"
SUMS = ["0111 0 1", "0001 7 2", "0001 3 4", "0001 9 5", "0001 10 6", "0110 8 11"]
REALIGNED = ["0001 0 1", "0111 3 2", "0001 4 0", "0001 2 1", "0111 6 0", "0111 1 2", "0111 8 0"]
HEAVY = "a:9 b"

# What it shows, what the answer is, and the circuit; a way of the program `wrong` behind it answers otherwise.
NAMED = [
    # the order of the two sides
    ("the heavier side comes first", OTHERWISE, circuit("4 8 10 none span one", "a b:2", AB, "2"), "order"),
    ("the heavier side comes first under Basic", OTHERWISE, circuit("4 8 10 none basic one", "a b:2", AB, "2"), "order"),
    ("under Naive it comes first, and so has the larger coefficient", OTHERWISE, circuit("3 4 10 none naive many", "a b:2", AB, "2"), "order"),
    ("of two sums of one span the heavier comes first", OTHERWISE, circuit("4 8 10 none span one", "a b c d:2", ["0001 0 1", "0001 2 3", "0111 4 5"], "6"), "order"),
    ("a sum of norm 7 by weights comes before one of norm 6", OTHERWISE, circuit("8 8 10 none span one", "a b c d:4 e f g", SUMS, "12"), "order"),
    ("a sum of norm 5 by weights comes behind one of norm 6", ALIKE, circuit("8 8 10 none span one", "a b c d:2 e f g", SUMS, "12"), None),
    ("the larger span comes first, however light it is", ALIKE, circuit("4 8 10 none span one", "a b c:64", ["0001 0 1", "0001 2 3"], "4"), None),
    ("of equally heavy sides the left one stays first", ALIKE, circuit("4 8 10 none span one", "a:5 b:5", AB, "2"), None),
    ("over T sources the heavier side is bootstrapped first", OTHERWISE, circuit("4 8 3 none span one", "a b c d:2", ["0001 0 1", "0001 2 3", "0110 4 5"], "6"), "order"),
    # the score
    ("the norm by weights picks another pair", OTHERWISE, circuit("5 6 10 none span one", "a b c:2", ["0110 0 2", "0001 3 1"], "4"), "score"),
    ("the norm by weights picks another pair, many tables a sum", OTHERWISE, circuit("5 6 10 none span many", "a b:2 c", ["0110 1 2", "0001 0 3"], "4"), "score"),
    ("all weights equal: the pair as with all weights 1", ALIKE, circuit("5 6 10 none span one", "a:9 b:9 c:9", ["0110 0 2", "0001 3 1"], "4"), None),
    ("a function again on other weights: the pair is searched again", ALIKE, circuit("5 6 10 none span one", "a b:2 c d e", ["0110 1 2", "0001 5 0", "0110 4 0", "0001 7 3"], "8"), "cache"),
    ("the other way round", OTHERWISE, circuit("5 6 10 none span one", "a b c d:2 e", ["1001 2 0", "1011 5 1", "1001 4 3", "1011 7 0"], "8"), "cache"),
    # the limit in the search
    ("a pair is over NORM by weight, so a side is bootstrapped", OTHERWISE, circuit("3 4 10 3 span one", "a b:2 c", ["0001 0 1", "0001 2 3"], "4"), "limit"),
    ("a coefficient counts squared, times the weight", OTHERWISE, circuit("3 6 10 145 span one", "a:16 b c", ["0001 2 1", "0110 3 0"], "4"), "once"),
    ("the weight counts once, not squared", MAPPED, circuit("3 5 10 111 span one", "a:6 b c", ["0111 1 2", "0001 0 3"], "4"), "square"),
    # realigning
    ("realigning picks another form", OTHERWISE, circuit("4 5 10 none span many", "a b c:2", REALIGNED, "7 9"), "form"),
    ("realigning with all weights equal picks the same form", ALIKE, circuit("4 5 10 none span many", "a:2 b:2 c:2", REALIGNED, "7 9"), None),
    # bootstraps
    ("a bootstrap weighs 1, whatever it stands on", MAPPED, circuit("2 3 10 none span one", "a:2 b", ["0001 0 1", "0001 2 0"], "3 2"), "boot"),
    ("NORM at the bound for an input and a bootstrap that stands on it", MAPPED, circuit("4 8 1 10 span one", HEAVY, ["0001 0 1", "0110 2 0"], "2 3"), "boot"),
    # Basic's last check
    ("Basic is refused at its last check: an input over NORM is live", no(8, 0), circuit("4 8 10 8 basic one", HEAVY, ["10 1"], "2 0"), "check"),
    ("the same circuit with that input dead", MAPPED, circuit("4 8 10 8 basic one", HEAVY, ["10 1"], "2"), "dead"),
    ("the same circuit with NORM at its weight", MAPPED, circuit("4 8 10 9 basic one", HEAVY, ["10 1"], "2 0"), None),
    ("an input that only a constant gate has is dead too", MAPPED, circuit("4 8 10 8 basic many", HEAVY, ["11 0"], "2 1"), "dead"),
    ("an unused input over NORM among others", MAPPED, circuit("4 8 10 5 basic one", "a:2 b:64 c:3", ["0001 0 2"], "3"), "dead"),
    # inputs over NORM at outputs
    ("an output wired to an input heavier than NORM, span", ALIKE, circuit("4 8 10 8 span one", HEAVY, [], "0"), None),
    ("an output wired to an input heavier than NORM, naive", ALIKE, circuit("4 8 10 0 naive many", "a:64", [], "0"), None),
    ("a gate beside it keeps to NORM", ALIKE, circuit("4 8 10 2 span many", "a:9 b c", ["0001 1 2"], "0 3"), None),
    # 8 at gates on one wire
    ("8 at a unary gate: NOT", no(8, 3), circuit("4 8 10 8 span one", "a:9", ["10 0"], "1"), "unary"),
    ("8 at a unary gate: 01", no(8, 3), circuit("4 8 10 8 naive many", "a:9", ["01 0"], "1"), "unary"),
    ("8 at a unary gate under Basic", no(8, 4), circuit("4 8 10 8 basic one", HEAVY, ["10 0"], "1"), "unary"),
    ("8 at a gate with a constant on its right", no(8, 4), circuit("4 8 10 8 span many", HEAVY, ["0110 0 k1"], "2"), "unary"),
    ("8 at a gate with a constant on its left", no(8, 5), circuit("4 8 10 8 span one", HEAVY, ["10 1", "0001 k1 0"], "3"), "unary"),
    ("no 8 where its answer is constant", MAPPED, circuit("4 8 10 8 span one", HEAVY, ["00 0", "0001 0 k0", "1110 k0 0"], "2 3 4"), None),
    ("no 8 with NORM at its weight", ALIKE, circuit("4 8 10 9 span one", HEAVY, ["10 0"], "2"), None),
    # 9 on such inputs
    ("9 for AND(a, a) of an input over NORM", no(9, 3), circuit("4 8 10 8 span one", "a:9", ["0001 0 0"], "1"), "limit"),
    ("9 for a gate that goes by an input over NORM alone", no(9, 4), circuit("4 8 10 8 span one", HEAVY, ["0011 0 1"], "2"), "limit"),
    ("a gate that goes by the light side alone is mapped", ALIKE, circuit("4 8 10 8 span one", HEAVY, ["0101 0 1"], "2"), None),
    ("XOR(a, a) is constant and no 9", MAPPED, circuit("4 8 10 8 span one", "a:9", ["0110 0 0"], "1"), None),
    ("AND(a, a) with NORM at its weight", ALIKE, circuit("4 8 10 9 naive one", "a:9", ["0001 0 0"], "1"), None),
    # the data sheet's bound
    ("AND of the two heaviest at the bound 67 is mapped", OTHERWISE, circuit("4 8 10 67 span one", THREE, ["0001 0 2"], "3"), "square"),
    ("AND of the two heaviest at 66 is refused", no(9, 5), circuit("4 8 10 66 span one", THREE, ["0001 0 2"], "3"), "limit"),
    ("the same at P = 2 and M = 3, at 67", ALIKE, circuit("2 3 1 67 span many", THREE, ["0001 0 2"], "3"), None),
    ("and at 66", no(9, 5), circuit("2 3 1 66 span many", THREE, ["0001 0 2"], "3"), "limit"),
    ("AND of the two lighter ones at 66", ALIKE, circuit("4 8 10 66 span one", THREE, ["0001 0 1"], "3"), None),
    ("all three at 67", MAPPED, circuit("16 32 10 67 span one", THREE, ["0001 0 2", "0110 3 1", "0111 4 2"], "5"), None),
    ("two inputs of weight 64 at 128", ALIKE, circuit("4 8 10 128 span one", "a:64 b:64", AB, "2"), None),
    ("two inputs of weight 64 at 127", no(9, 4), circuit("4 8 10 127 span one", "a:64 b:64", AB, "2"), None),
    ("one heavy input and one of weight 1 at 65", OTHERWISE, circuit("4 8 10 65 span one", "a b:64", AB, "2"), None),
    ("one heavy input and one of weight 1 at 64", no(9, 4), circuit("4 8 10 64 span one", "a b:64", AB, "2"), None),
    ("an unused input is in the bound, though the circuit needs less", ALIKE, circuit("4 8 10 2 span one", "a b c:64", AB, "3"), None),
    ("M = 2 refuses at every NORM", no(9, 4), circuit("2 2 10 4096 span one", "a:3 b:64", AB, "2"), None),
    # texts
    ("32 inputs of weights 2 to 64 in steps of 2", MAPPED, circuit("4 8 10 0 span one", " ".join(f"i{w}:{w}" for w in range(2, 65, 2)), [], " ".join(map(str, range(32)))), None),
    ("dead inputs between live ones of other weights", MAPPED, circuit("4 8 10 none naive one", "a:2 b:3 c d:5 e:6 f", [], "1 3 5"), None),
    ("names that are numbers", MAPPED, circuit("4 8 10 none span one", "2:2 64:64 1", ["0001 0 1"], "3 2"), None),
    ("nothing but a weight", MAPPED, circuit("4 8 10 none basic one", "a:64", [], ""), None),
    ("a repeated name with another weight", no(5, 4), circuit("4 8 10 none span one", "a:2 b a:3", [], "0"), None),
    ("a repeated name, once without a weight", no(5, 3), circuit("4 8 10 none span one", "a a:3", [], "0"), None),
    ("a 33rd input with a weight", no(3, 34), circuit("4 8 10 none span one", " ".join(f"i{w}:{w + 2}" for w in range(33)), [], "0"), None),
]
