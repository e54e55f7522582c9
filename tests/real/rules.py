"""Rules under src, what each means, and the settings they are mapped with."""

import pathlib
import re
import sys

sys.path.insert(1, str(pathlib.Path(__file__).resolve().parents[2] / "tools"))

import script
from circuits import Settings

PLACE = script.REPOSITORY / "tests" / "real"

PRESENT = [int(digit, 16) for digit in "C56B90AD3EF84712"]
ASCON = [int(word, 16) for word in "04 0b 1f 14 1a 15 09 02 1b 05 08 12 1d 03 06 1c 1e 13 07 0e 00 0d 11 18 10 0c 01 19 16 0a 0f 17".split()]
SEGMENTS = ["abcdef", "bc", "abdeg", "abcdg", "bcfg", "acdfg", "acdefg", "abc", "abcdefg", "abcdfg"] + [""] * 6


def ones(word):
    return bin(word).count("1")


def remainder(word, polynomial):
    """The remainder of a polynomial over two elements."""
    while word.bit_length() >= polynomial.bit_length():
        word ^= polynomial << word.bit_length() - polynomial.bit_length()
    return word


def usb(data):
    """The CRC of 11 bits, sent lowest first; the ones at the start stand on the first five sent."""
    sent = int(f"{data:011b}"[::-1], 2)
    return remainder((sent ^ 0x1F << 6) << 5, 0x25)


def clamped(level, change):
    return max(0, min(63, level + (change - 16 if change > 7 else change)))


def over(heat, smoke, flow):
    return (heat > 9) + (smoke > 4) + (flow < 3)


def press(hand_left, hand_right, guard_shut, curtain_shut, oil_up, air_up, stop, service_key):
    guarded = (guard_shut and curtain_shut) or service_key
    supplied = oil_up and air_up
    close = hand_left and hand_right and guarded and supplied and not stop
    return {"press_close": close, "lamp_guard": not guarded, "lamp_supply": not supplied}


# What each rule says of the words that its inputs hold: the words that its outputs hold.
RULES = {
    "adder2.v": lambda a, b: {"s": a + b},
    "adder4.bristol": lambda i: {"": (i & 15) + (i >> 4)},
    "adder8.v": lambda a, b: {"s": a + b},
    "alarm.v": lambda heat, smoke, flow, hold: {
        "warning": over(heat, smoke, flow) >= 1 and not hold,
        "alarm": over(heat, smoke, flow) >= 2 and not hold,
    },
    "ascon.v": lambda x: {"y": ASCON[x]},
    "clamp.v": lambda level, change: {"next": clamped(level, change)},
    "compare6.v": lambda a, b: {"lt": a < b, "eq": a == b, "gt": a > b},
    "crc5.v": lambda data: {"crc": usb(data)},
    "crc8.v": lambda state, data: {"next": remainder((state ^ data) << 8, 0x107)},
    "digit.pla": lambda x: {segment: segment in SEGMENTS[x] for segment in "abcdefg"},
    "grade.v": lambda a, b, c, d: {"pass": a + b + c + d >= 10, "good": a + b + c + d >= 17, "best": a + b + c + d >= 24},
    "interlock.bench": press,
    "majority9.v": lambda v: {"yes": ones(v) > 4},
    "median3.v": lambda a, b, c: {"m": sorted((a, b, c))[1]},
    "mux16.v": lambda d, s: {"y": d >> s & 1},
    "parity24.bench": lambda x: {
        "low": ones(x & 0xFF) % 2,
        "middle": ones(x >> 8 & 0xFF) % 2,
        "high": ones(x >> 16) % 2,
        "all": ones(x) % 2,
    },
    "popcount12.v": lambda x: {"n": ones(x)},
    "present.pla": lambda x: {"y": PRESENT[x]},
    "priority16.v": lambda request: {"number": max(request.bit_length() - 1, 0), "any": request > 0},
    "product4.v": lambda a, b: {"p": a * b},
}

SETTINGS = (
    Settings(4, 8, 10, None, "span", "one"),
    Settings(16, 32, 10, None, "span", "many"),
    Settings(8, 16, 6, 10, "span", "many"),
    Settings(2, 3, 10, 2, "span", "one"),
    Settings(16, 32, 10, 40, "naive", "one"),
    Settings(4, 8, 10, None, "basic", "many"),
    # Passes where all gates are XOR, refuses an AND.
    Settings(2, 4, 10, None, "naive", "many"),
)


def netlist(rule):
    """The file that is converted: made from a Verilog module or a truth table, else the source itself."""
    source = PLACE / "src" / rule
    return PLACE / "blif" / f"{source.stem}.blif" if source.suffix in (".v", ".pla") else source


def words(names, bits):
    """The words that named bits hold: a_0, a_1, .. or a0, a1, .. are a's, lowest first; the numbers alone are those of ''."""
    result, width = {}, {}
    for name, bit in zip(names, bits):
        word = re.fullmatch(r"(.*?)_?[0-9]*", name).group(1)
        place = width.get(word, 0)
        result[word] = result.get(word, 0) | bit << place
        width[word] = place + 1
    return result
