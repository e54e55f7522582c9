"""The entries of crates/exports for scripts: the static library that `rt lib` makes there, linked as a shared one and called through ctypes."""

import ctypes
import pathlib
import re
import subprocess

TOP = pathlib.Path(__file__).resolve().parent.parent
ARCHIVE = TOP / "crates" / "exports" / "out" / "libexports.a"
SHARED = TOP / "target" / "entries" / "libexports.so"
HEADER = TOP / "include" / "wonkpecan.h"
ANSWER_BYTES = 65536
STATE_BYTES = 34704
OUTPUTS, VALUES, BOOTS = 32, 342, 671


class Refused(Exception):
    """An entry's number that is not 0, and the line."""

    def __init__(self, reply):
        self.number, self.line = reply.number, reply.line
        where = f" at line {self.line}" if self.line else ""
        super().__init__(f"{self.number}{where}: {phrases().get(self.number, 'refused')}")


def numbers(*names, **others):
    """A struct of C's, of numbers."""
    fields = [(name, ctypes.c_size_t) for name in names] + list(others.items())
    return type("Reply", (ctypes.Structure,), {"_fields_": fields})


Reply = numbers("number", "line", "count")
Values = numbers("number", "line", "count", least=ctypes.c_int64)
Trial = numbers("number", "line", "count", "ticks")
Retuned = numbers("number", "line", "count", "begun")


def phrases():
    """The header's words for each number."""
    text = HEADER.read_text()
    known = {name: int(number) for name, number in re.findall(r"\b(FBS_\w+) = (\d+)", text)}
    return {known[name]: words for name, words in re.findall(r'case (FBS_\w+): return "([^"]*)"', text)}


def library():
    """The shared library, made anew where the static one is newer."""
    if not ARCHIVE.exists():
        raise SystemExit("crates/exports/out/libexports.a is not there: (cd crates/exports && rt lib) makes it")
    if not SHARED.exists() or SHARED.stat().st_mtime < ARCHIVE.stat().st_mtime:
        SHARED.parent.mkdir(parents=True, exist_ok=True)
        subprocess.run(["gcc", "-shared", "-o", SHARED, "-Wl,--whole-archive", ARCHIVE, "-Wl,--no-whole-archive"], check=True)
    return ctypes.CDLL(str(SHARED))


def call(name, result, text, *others):
    """An entry on a text; what is refused is raised."""
    entry = getattr(library(), name)
    entry.restype = result
    reply = entry(ctypes.c_char_p(text), ctypes.c_size_t(len(text)), *others)
    if reply.number:
        raise Refused(reply)
    return reply


def mapped(text):
    """The network that the mapper writes for a circuit."""
    out = ctypes.create_string_buffer(ANSWER_BYTES)
    reply = call("fbs_map", Reply, text, out, ctypes.c_size_t(ANSWER_BYTES))
    return out.raw[: reply.count]


def state_buffer():
    """For the state that `retuned` keeps; there is none in it."""
    return ctypes.create_string_buffer(STATE_BYTES)


def retuned(text, line, state):
    """The same network, mapped from the gate of that line on where the state kept before it stands in the buffer, and how many gates were begun."""
    out = ctypes.create_string_buffer(ANSWER_BYTES)
    reply = call("fbs_retune", Retuned, text, ctypes.c_size_t(line), state, ctypes.c_size_t(len(state)), out, ctypes.c_size_t(ANSWER_BYTES))
    return out.raw[: reply.count], reply.begun


def ones(text):
    """At how many assignments of its inputs a network gives 1, for each output."""
    counts = (ctypes.c_uint32 * OUTPUTS)()
    reply = call("fbs_ones", Reply, text, counts)
    return list(counts[: reply.count])


def value_counts(text, node):
    """The least sum of a `lin` node, and how many assignments of its terms give each value from it on."""
    counts = (ctypes.c_uint32 * VALUES)()
    reply = call("fbs_value_counts", Values, text, ctypes.c_size_t(node), counts)
    return reply.least, list(counts[: reply.count])


def trial(text, workers, ticks):
    """The tick at which each boot of a network is begun, in the order of their numbers, and the length of the run."""
    starts = (ctypes.c_uint32 * BOOTS)()
    reply = call("fbs_trial", Trial, text, ctypes.c_size_t(workers), ctypes.c_size_t(ticks), starts)
    return list(starts[: reply.count]), reply.ticks
