"""Inputs of the service with the outputs that documents 01 and 02 give them, by hand.

A case is (what it shows, the whole input, the whole output)."""

END = "(end)\n"
S = "(fbs 4 8 10 none span one)"


def text(*lines):
    return "".join(line + "\n" for line in lines)


def job(*lines):
    return text(*lines) + END


def refused(number, line):
    return job(f"(no {number} {line})")


AND_JOB = job(S, "(in a)", "(in b)", "(gate g 0001 (n 0) (n 1))", "(out y (n 2))")
AND_NETWORK = job("(net 4 8 none)", "(in a)", "(in b)", "(lin 0 (1 0) (1 1))", "(boot 2 001)", "(out y (n 3))")


def gate_on_two(settings, table):
    return job(settings, "(in a)", "(in b)", f"(gate g {table} (n 0) (n 1))", "(out y (n 2))")


INPUTS_32 = [f"(in i{place})" for place in range(32)]
GATES_96 = ["(gate g 01 (n 0))"] * 96
OUTPUTS_32 = ["(out y (n 0))"] * 32
DIGITS = "9" * 1000

WORKED = [
    ("the service's example", AND_JOB, AND_NETWORK),
    (
        "XOR, P 2, M 3, span: (1, -1) beats (1, 1)",
        gate_on_two("(fbs 2 3 10 none span one)", "0110"),
        job("(net 2 3 none)", "(in a)", "(in b)", "(lin 1 (1 0) (-1 1))", "(boot 2 101)", "(out y (n 3))"),
    ),
    (
        "AND of a parity and its first input: the norm decides before the energy (document 02, S-3)",
        job("(fbs 5 6 10 none span one)", "(in a)", "(in b)", "(in c)", "(gate g 0110 (n 0) (n 1))", "(gate h 0110 (n 3) (n 2))", "(gate i 0001 (n 4) (n 0))", "(out y (n 5))"),
        job("(net 5 6 none)", "(in a)", "(in b)", "(in c)", "(lin 4 (1 0) (-2 1) (-2 2))", "(boot 3 010001)", "(out y (n 4))"),
    ),
    ("AND, P 2, M 4, naive", gate_on_two("(fbs 2 4 10 none naive one)", "0001"), refused(9, 4)),
    ("AND, P = M = 4, basic", gate_on_two("(fbs 4 4 10 none basic one)", "0001"), refused(9, 4)),
    ("AND, P = M = 16, basic", gate_on_two("(fbs 16 16 10 none basic many)", "0001"), refused(9, 4)),
    ("AND, P = M = 2, span", gate_on_two("(fbs 2 2 10 none span one)", "0001"), refused(9, 4)),
    (
        "NOT of a",
        job(S, "(in a)", "(gate g 10 (n 0))", "(out y (n 1))"),
        job("(net 4 8 none)", "(in a)", "(lin 1 (-1 0))", "(out y (n 1))"),
    ),
    (
        "basic works with P 2 and M 4",
        gate_on_two("(fbs 9 10 1 4096 basic many)", "0001"),
        job("(net 2 4 4096)", "(in a)", "(in b)", "(lin 0 (1 0) (1 1))", "(boot 2 001)", "(out y (n 3))"),
    ),
    (
        "limit 0 passes an output on an input",
        job("(fbs 4 8 10 0 span one)", "(in a)", "(out y (n 0))"),
        job("(net 4 8 0)", "(in a)", "(out y (n 0))"),
    ),
    ("but not under basic", job("(fbs 4 8 10 0 basic one)", "(in a)", "(out y (n 0))"), refused(8, 0)),
    (
        "basic with nothing left, limit 0",
        job("(fbs 4 4 10 0 basic one)", "(in a)", "(out y (k 1))"),
        job("(net 2 2 0)", "(out y (k 1))"),
    ),
    ("limit 0 refuses a NOT", job("(fbs 4 8 10 0 naive many)", "(in a)", "(gate g 10 (n 0))"), refused(8, 3)),
    ("under basic at the gate's line", job("(fbs 4 8 10 0 basic one)", "(in a)", "(gate g 10 (n 0))"), refused(8, 3)),
    ("a constant is not refused", job("(fbs 4 8 10 0 span one)", "(in a)", "(gate g 11 (n 0))", "(out y (n 1))"), job("(net 4 8 0)", "(out y (k 1))")),
    ("a dead input goes", job(S, "(in a)", "(in b)", "(out y (n 1))"), job("(net 4 8 none)", "(in b)", "(out y (n 0))")),
    (
        "a constant side makes a gate unary",
        job(S, "(in a)", "(gate g 0001 (n 0) (k 1))", "(gate h 0110 (k 1) (n 1))", "(out x (n 1))", "(out y (n 2))"),
        job("(net 4 8 none)", "(in a)", "(lin 1 (-1 0))", "(out x (n 0))", "(out y (n 1))"),
    ),
    (
        "one wire on both sides",
        job(S, "(in a)", "(gate g 0110 (n 0) (n 0))", "(gate h 0111 (n 0) (n 0))", "(out x (n 1))", "(out y (n 2))"),
        job("(net 4 8 none)", "(in a)", "(out x (k 0))", "(out y (n 0))"),
    ),
    (
        "output names may repeat, gate names don't matter",
        job(S, "(in a)", "(gate a 01 (n 0))", "(gate a 01 (n 1))", "(out a (n 2))", "(out a (n 0))", "(out a (k 0))"),
        job("(net 4 8 none)", "(in a)", "(out a (n 0))", "(out a (n 0))", "(out a (k 0))"),
    ),
    ("settings alone", job(S), job("(net 4 8 none)")),
    ("a dead gate can be refused", job("(fbs 2 2 10 none span one)", "(in a)", "(in b)", "(gate g 01 (n 0))", "(gate g 0110 (n 0) (n 1))", "(out y (n 0))"), refused(9, 5)),
    ("names and numbers at their limits", job("(fbs 16 32 10 4096 span many)", "(in abcdefghij_01289)", "(out z (n 0))"), job("(net 16 32 4096)", "(in abcdefghij_01289)", "(out z (n 0))")),
    ("32 inputs, 96 gates, 32 outputs", job(S, *INPUTS_32, *GATES_96, *OUTPUTS_32), job("(net 4 8 none)", "(in i0)", *OUTPUTS_32)),
]

# The table's rows 1 to 9.
ROWS = [
    ("row 1", job(S, "(in a)", "(gate g 02 (n 0))"), refused(1, 3)),
    ("row 2", job("(fbs 4 9 8 none span one)"), refused(2, 1)),
    ("row 3", job(S, *INPUTS_32, "(in more)"), refused(3, 34)),
    ("row 4", job(), refused(4, 1)),
    ("row 5", job(S, "(in a)", "(in a)"), refused(5, 3)),
    ("row 6", job(S, "(gate g 10 (n 0))"), refused(6, 2)),
    ("row 7", job(S, "(in a)", "(in b)", "(gate g 10 (n 0) (n 1))"), refused(7, 4)),
    ("row 8", job("(fbs 4 8 10 0 span one)", "(in a)", "(gate g 10 (n 0))", "(out y (n 1))"), refused(8, 3)),
    ("row 9", gate_on_two("(fbs 2 2 10 none span one)", "0001"), refused(9, 4)),
]


def bad_second(line):
    """A text whose second line is no form."""
    return job(S, line)


FORMS = [
    (f"no form: {line!r}", bad_second(line), refused(1, 2))
    for line in (
        "",
        " ",
        "(in a) ",
        " (in a)",
        "(in  a)",
        "(in\ta)",
        "(in a)\r",
        "(in a)\0",
        "(in a\0)",
        "(in )",
        "(in)",
        "(in A)",
        "(in a-b)",
        "(in a b)",
        "(in \xe9)",
        "(in a))",
        "(in a",
        "in a",
        "(IN a)",
        "(in abcdefghij_012345)",
        "(net 4 8 none)",
        "(lin 0 (1 0))",
        "(end",
        "(end)(end)",
        "(gate)",
        "(gate g)",
        "(gate g )",
        "(gate g 10 )",
        "(gate g 10(n 0))",
        "(gate g 10 (n 00))",
        "(gate g 10 (n 01))",
        "(gate g 10 (n -0))",
        "(gate g 10 (n -1))",
        "(gate g 10 (n +1))",
        "(gate g 10 (n ))",
        "(gate g 10 (k 2))",
        "(gate g 10 (k 00))",
        "(gate g 10 (k 01))",
        "(gate g 10 (k n))",
        "(gate g 10  (k 0))",
        "(gate g 10 (k 0)(k 1))",
        "(gate g 12 (k 0))",
        "(gate g (k 0))",
        "(out y)",
        "(out y (k 0) (k 0))",
        "(out y k)",
        "(out y 0)",
    )
]

SETTINGS = [
    (f"settings {line}", job(f"(fbs {line})"), refused(number, 1))
    for line, number in (
        ("1 2 10 none span one", 2),
        ("17 17 10 none span one", 2),
        ("0 0 10 none span one", 2),
        ("4 3 10 none span one", 2),
        ("4 9 10 none span one", 2),
        ("4 8 0 none span one", 2),
        ("4 8 11 none span one", 2),
        (f"{DIGITS} 8 10 none span one", 2),
        (f"4 {DIGITS} 10 none span one", 2),
        (f"4 8 {DIGITS} none span one", 2),
        ("18446744073709551620 8 10 none span one", 2),
        ("4 18446744073709551624 10 none span one", 2),
        ("4 8 10 4097 span one", 1),
        (f"4 8 10 {DIGITS} span one", 1),
        ("4 8 10 -1 span one", 1),
        ("4 8 10 00 span one", 1),
        ("4 8 10 None span one", 1),
        ("4 8 10 non span one", 1),
        ("4 8 10 none min one", 1),
        ("4 8 10 none spans one", 1),
        ("4 8 10 none span two", 1),
        ("4 8 10 none span ones", 1),
        ("4 8 10 none span", 1),
        ("4 8 10 none span one one", 1),
        ("04 8 10 none span one", 1),
        ("4 08 10 none span one", 1),
        ("4 8 010 none span one", 1),
        ("-4 8 10 none span one", 1),
        ("1 2 10 4097 span one", 1),
    )
]

ORDER = [
    ("a first line that is a form, but no fbs", job("(in a)"), refused(4, 1)),
    ("a first line gate on nothing", job("(gate g 10 (n 0))"), refused(4, 1)),
    ("a first line out", job("(out y (k 0))", S), refused(4, 1)),
    ("a second fbs", job(S, "(in a)", S), refused(4, 3)),
    ("a second fbs outside the limits", job(S, "(in a)", "(fbs 4 8 11 none span one)"), refused(2, 3)),
    ("a second fbs with its NORM too large", job(S, "(fbs 4 8 11 4097 span one)"), refused(1, 2)),
    ("an input behind a gate", job(S, "(in a)", "(gate g 10 (n 0))", "(in b)"), refused(4, 4)),
    ("an input behind an output", job(S, "(out y (k 0))", "(in b)"), refused(4, 3)),
    ("a gate behind an output", job(S, "(in a)", "(out y (n 0))", "(gate g 10 (n 0))"), refused(4, 4)),
    ("a gate behind an output, on nothing", job(S, "(in a)", "(out y (n 0))", "(gate g 10 (n 9))"), refused(4, 4)),
    ("a known input name behind a gate", job(S, "(in a)", "(gate g 10 (n 0))", "(in a)"), refused(4, 4)),
    ("a 33rd input of a known name", job(S, *INPUTS_32, "(in i0)"), refused(3, 34)),
    ("a 33rd input behind a gate", job(S, *INPUTS_32, "(gate g 10 (n 0))", "(in x)"), refused(3, 35)),
    ("a 32nd input behind a gate", job(S, *INPUTS_32[:31], "(gate g 10 (n 0))", "(in x)"), refused(4, 34)),
    ("a 97th gate", job(S, "(in a)", *GATES_96, "(gate g 01 (n 0))"), refused(3, 99)),
    ("a 97th gate behind an output", job(S, "(in a)", *GATES_96, "(out y (k 0))", "(gate g 01 (n 999))"), refused(3, 100)),
    ("a 33rd output", job(S, "(in a)", *OUTPUTS_32, "(out y (n 5))"), refused(3, 35)),
    ("an output on no node", job(S, "(in a)", "(out y (n 1))"), refused(6, 3)),
    ("an output on a node of a thousand digits", job(S, "(in a)", f"(out y (n {DIGITS}))"), refused(6, 3)),
    ("an output on node 2 to the 64", job(S, "(in a)", "(out y (n 18446744073709551616))"), refused(6, 3)),
    ("a gate on itself", job(S, "(in a)", "(gate g 10 (n 1))"), refused(6, 3)),
    ("a gate without a wire", job(S, "(gate g 10)"), refused(7, 2)),
    ("a gate of three wires", job(S, "(in a)", "(gate g 00010001 (n 0) (n 0) (n 0))"), refused(7, 3)),
    ("a gate of three wires, one on nothing", job(S, "(in a)", "(gate g 10 (n 0) (n 0) (n 1))"), refused(6, 3)),
    ("a gate of one wire and four bits", job(S, "(in a)", "(gate g 0001 (n 0))"), refused(7, 3)),
    ("a gate of two wires and two bits", job(S, "(gate g 01 (k 0) (k 1))"), refused(7, 2)),
    ("a gate of two wires and 5,000 bits", job(S, f"(gate g {'01' * 2500} (k 0) (k 1))"), refused(7, 2)),
    ("the first bad line decides", job(S, "(in a)", "(in a)", "(in A)"), refused(5, 3)),
    ("reading comes before mapping", job("(fbs 4 8 10 0 span one)", "(in a)", "(gate g 10 (n 0))", "(out y (n 9))"), refused(6, 4)),
]

# Document 02, S-6.
HEAVY_NORM = "(fbs 4 8 10 {} {} one)"


def and_of(norm, *inputs):
    return job(HEAVY_NORM.format(norm, "span"), *inputs, "(gate g 0001 (n 0) (n 2))", "(out y (n 3))")


WEIGHTS = [
    (
        "a weight stays, and the heavier side comes first",
        job(S, "(in a)", "(in b 2)", "(gate g 0001 (n 0) (n 1))", "(out y (n 2))"),
        job("(net 4 8 none)", "(in a)", "(in b 2)", "(lin 0 (1 1) (1 0))", "(boot 2 001)", "(out y (n 3))"),
    ),
    (
        "weights 64, 10 and 1, and a dead input before them",
        job(S, "(in a 9)", "(in b 64)", "(in c 10)", "(in d)", "(out x (n 1))", "(out y (n 2))", "(out z (n 3))"),
        job("(net 4 8 none)", "(in b 64)", "(in c 10)", "(in d)", "(out x (n 0))", "(out y (n 1))", "(out z (n 2))"),
    ),
    (
        "the norm by weights picks (1, -3), where (2, -1) has the smaller one without",
        job("(fbs 5 6 10 none span one)", "(in a)", "(in b)", "(in c 2)", "(gate g 0110 (n 0) (n 2))", "(gate h 0001 (n 3) (n 1))", "(out y (n 4))"),
        job("(net 5 6 none)", "(in a)", "(in b)", "(in c 2)", "(lin 4 (1 2) (-1 0) (-3 1))", "(boot 3 101000)", "(out y (n 4))"),
    ),
    (
        "AND of weights 3 and 64 at their sum",
        and_of(67, "(in a 3)", "(in b 2)", "(in c 64)"),
        job("(net 4 8 67)", "(in a 3)", "(in c 64)", "(lin 0 (1 1) (1 0))", "(boot 2 001)", "(out y (n 3))"),
    ),
    ("AND of weights 3 and 64, one below", and_of(66, "(in a 3)", "(in b 2)", "(in c 64)"), refused(9, 5)),
    (
        "limit 8 passes an output on an input of weight 9",
        job(HEAVY_NORM.format(8, "span"), "(in a 9)", "(out y (n 0))"),
        job("(net 4 8 8)", "(in a 9)", "(out y (n 0))"),
    ),
    ("but not under basic", job(HEAVY_NORM.format(8, "basic"), "(in a 9)", "(in b)", "(out y (n 0))"), refused(8, 0)),
    (
        "where it is dead it does not count",
        job(HEAVY_NORM.format(8, "basic"), "(in a 9)", "(in b)", "(out y (n 1))"),
        job("(net 2 4 8)", "(in b)", "(out y (n 0))"),
    ),
    ("limit 8 refuses a NOT of weight 9", job(HEAVY_NORM.format(8, "span"), "(in a 9)", "(gate g 10 (n 0))"), refused(8, 3)),
    ("and the gate 01", job(HEAVY_NORM.format(8, "naive"), "(in a 9)", "(gate g 01 (n 0))"), refused(8, 3)),
    (
        "limit 9 passes a NOT of weight 9",
        job(HEAVY_NORM.format(9, "span"), "(in a 9)", "(gate g 10 (n 0))", "(out y (n 1))"),
        job("(net 4 8 9)", "(in a 9)", "(lin 1 (-1 0))", "(out y (n 1))"),
    ),
    ("AND of one wire of weight 9, limit 8", job(HEAVY_NORM.format(8, "span"), "(in a 9)", "(gate g 0001 (n 0) (n 0))"), refused(9, 3)),
    ("a name repeated with another weight", job(S, "(in a)", "(in a 2)"), refused(5, 3)),
    ("a name repeated without its weight", job(S, "(in a 2)", "(in b)", "(in a)"), refused(5, 4)),
    ("a 33rd input with a weight", job(S, *INPUTS_32, "(in x 2)"), refused(3, 34)),
    ("a 33rd input with weight 1", job(S, *INPUTS_32, "(in x 1)"), refused(1, 34)),
    ("an input with a weight behind a gate", job(S, "(in a 2)", "(gate g 10 (n 0))", "(in b 2)"), refused(4, 4)),
    *(
        (f"no weight: {written[:20]!r}", bad_second(f"(in a{written})"), refused(1, 2))
        for written in (" 1", " 0", " 00", " 01", " 02", " 064", " 65", " 66", " 100", " 258", " -2", " +2", "  2", " 2 ", " ", " 2 2", " 2.0", " 0x2", " x", "\t2")
    ),
    ("a weight of a thousand digits", bad_second(f"(in a {DIGITS})"), refused(1, 2)),
    ("a weight of 2 to the 64 and 2", bad_second("(in a 18446744073709551618)"), refused(1, 2)),
    ("a name of two digits and no weight", job(S, "(in 64)", "(out y (n 0))"), job("(net 4 8 none)", "(in 64)", "(out y (n 0))")),
]


def padded(length):
    """A text of so many bytes whose last line goes to no earlier node."""
    head = text(S, "(in a)") + "(out y (n 1"
    return head + "0" * (length - len(head) - 3) + "))\n"


SERVICE = [
    ("empty input", "", ""),
    ("an empty job", END, refused(4, 1)),
    ("three jobs", AND_JOB + END + AND_JOB, AND_NETWORK + refused(4, 1) + AND_NETWORK),
    ("a newline alone", "\n", refused(1, 0)),
    ("no (end)", text(S), refused(1, 0)),
    ("a job, then no (end)", AND_JOB + text(S), AND_NETWORK + refused(1, 0)),
    ("(end) without a newline", "(end)", refused(1, 0)),
    ("a text and (end) without a newline", AND_JOB[:-1], refused(1, 0)),
    ("a text cut in its last line", AND_JOB[: -len(END) - 4], refused(1, 0)),
    ("(end) behind a space", text(S, " (end)") + END, refused(1, 2)),
    ("(end) before a space", text(S, "(end) ") + END, refused(1, 2)),
    ("(end) before a CR", text(S, "(end)\r") + END + AND_JOB, refused(1, 2) + AND_NETWORK),
    ("32,768 bytes", padded(32_768) + END, refused(6, 3)),
    ("32,769 bytes, then a job", padded(32_769) + END + AND_JOB, refused(3, 0) + AND_NETWORK),
    ("a long job of bad lines", "x\n" * 20_000 + END + AND_JOB, refused(3, 0) + AND_NETWORK),
    ("a long job without (end)", padded(40_000), refused(1, 0)),
    ("a long line without a newline", AND_JOB + "x" * 40_000, AND_NETWORK + refused(1, 0)),
]

CASES = [
    (what, given.encode("latin-1"), expected.encode("latin-1"))
    for what, given, expected in WORKED + ROWS + FORMS + SETTINGS + ORDER + WEIGHTS + SERVICE
]
