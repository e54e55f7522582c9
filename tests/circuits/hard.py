"""Circuits that are hard to come by: merges of T + 1 sources, reuse, realigning,
late refusals, large networks."""

import script
from circuits import POLICIES, Circuit, Settings

generate = script.load("tools/generate")

# Most were found among 44,000 by Rust mappers with one rule changed
# each: the changed mapper answers otherwise.
SEED = 31
FOUND = (
    # A cap of T sources instead of T + 1; T is 10.
    ("eleven", (61, 67, 144, 151, 200, 287, 377, 385, 450, 616, 624, 638, 743, 985, 1349, 1388)),
    ("sources", (497, 1679)),
    # Reuse left out of the score.
    ("reused", (518, 649, 741, 1087, 1854, 2047, 2092, 3342, 3398, 3878)),
    ("reuse", (649, 1216, 1288, 2005, 2361, 2909)),
    ("forms", (1690, 1914, 2500, 2519)),
    ("realistic", (3078, 4112, 5013)),
    ("random", (2276,)),
    # No realigning.
    ("reuse", (855, 1578, 1686)),
    ("forms", (1370, 1875, 2193)),
    ("gaps", (49, 459, 1474)),
    ("realistic", (2162, 5210, 5665)),
    ("long_chain", (781, 946)),
    ("overlap", (528,)),
    ("sources", (2823,)),
    # The energy before the norm.
    ("eleven", (255, 3743)),
    ("overlap", (1649, 2674, 2810)),
    ("gaps", (419, 2289)),
    ("realistic", (418, 422, 3688)),
    ("long_chain", (2090,)),
    # Found by `reach`: a table filled with 1, a constant at the second attempt,
    # a span of 32.
    ("gaps", (51, 256, 377)),
    ("overlap", (123, 428)),
    ("random", (1243, 1847)),
    # Networks of over 200 nodes.
    ("long_chain", (19, 35, 56, 90, 323, 397, 639, 694, 738, 821, 1134)),
)

NEEDED = (
    "merged cone of 11 sources",
    "reuse changes the choice",
    "reuse takes a larger span",
    "realigned to other coefficients",
    "table filled with 1",
    "constant at attempt 2",
    "merged cone of span 32",
    "refusal 8 at gate 60 or later",
    "refusal 9 at gate 60 or later",
    "refusal 8 at line 0",
    *(f"network of over 200 nodes, {policy}" for policy in POLICIES),
)


def of_one_source(draw, circuit):
    """A gate that depends on one source, like all before it."""
    node = draw.below(circuit.nodes)
    bits, *wires = draw.choice((
        (generate.NOT, node),
        ("01", node),
        (draw.choice(("0001", "0010", "0111", "0011")), node, node),
        (draw.choice((generate.AND, generate.OR, generate.XOR)), node, draw.choice("01")),
    ))
    circuit.gate(bits, *wires)


def constant(draw, circuit):
    """A gate that is constant, whatever was before it."""
    node = draw.below(circuit.nodes)
    bits, *wires = draw.choice((
        (draw.choice(("00", "11")), node),
        (draw.choice(("0000", "1111")), node, draw.below(circuit.nodes)),
        (draw.choice((generate.XOR, generate.XNOR)), node, node),
        (generate.NOT, draw.choice("01")),
    ))
    circuit.gate(bits, *wires)


def parity(draw, circuit):
    table = draw.choice((generate.XOR, generate.XNOR))
    circuit.gate(table, *draw.sample(range(circuit.nodes), 2))


# Settings, the gates that they let pass, and the gate that they refuse, on the
# first input or the first two.
LATE = (
    (Settings(2, 2, 10, None, "span", "one"), of_one_source, generate.AND),
    (Settings(2, 2, 3, 7, "naive", "many"), of_one_source, generate.XOR),
    (Settings(16, 32, 10, 1, "span", "many"), of_one_source, generate.OR),
    (Settings(9, 13, 2, 4, "naive", "one"), of_one_source, generate.NAND),
    (Settings(5, 5, 10, None, "basic", "many"), of_one_source, generate.XNOR),
    (Settings(7, 14, 10, 1, "basic", "one"), of_one_source, generate.NOR),
    (Settings(2, 4, 10, None, "naive", "one"), parity, generate.AND),
    (Settings(2, 4, 4, None, "naive", "many"), parity, generate.OR),
    (Settings(2, 4, 1, 5, "naive", "one"), parity, "0010"),
    (Settings(2, 4, 7, 90, "naive", "many"), parity, "1011"),
    (Settings(4, 8, 10, 0, "span", "one"), constant, generate.AND),
    (Settings(4, 8, 10, 0, "span", "one"), constant, generate.NOT),
    (Settings(16, 32, 1, 0, "span", "many"), constant, "01"),
    (Settings(3, 4, 6, 0, "naive", "many"), constant, generate.NOT),
    (Settings(12, 12, 10, 0, "naive", "one"), constant, "0011"),
    (Settings(6, 12, 10, 0, "basic", "many"), constant, generate.NOT),
    # Basic's last check alone refuses: the output is an input.
    (Settings(2, 4, 10, 0, "basic", "one"), constant, None),
    (Settings(16, 31, 4, 0, "basic", "many"), constant, None),
)


def late():
    """Refusals at gate 60 or later."""
    for number, (settings, passing, refused) in enumerate(LATE):
        draw = generate.Draw(SEED * 1_000_003 + number)
        circuit = Circuit(settings)
        generate.add_inputs(circuit, draw.between(2, 14))
        for _ in range(draw.between(59, 95)):
            passing(draw, circuit)
        if refused is None:
            circuit.output(0)
        else:
            circuit.gate(refused, *range(len(refused) // 2))
            while circuit.room() and draw.chance(80):
                generate.add_gate(draw, circuit)
        generate.add_outputs(draw, circuit)
        yield circuit.text()


def jobs():
    for family, numbers in FOUND:
        for number in numbers:
            yield generate.job(SEED, number, family)
    yield from late()
