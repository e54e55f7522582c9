"""Stored files held to what their maker makes."""

import pathlib
import sys


def show(line):
    return repr(line[:200]) if line is not None else "no such line"


def difference(path, made):
    """What is first other in the file than in `made`; nothing where both are the same."""
    if not path.exists():
        return "is not there"
    stored = path.read_bytes()
    if stored == made:
        return None
    lines, others = stored.splitlines(True), made.splitlines(True)
    number = next((i for i, (one, other) in enumerate(zip(lines, others)) if one != other), min(len(lines), len(others)))
    line, other = (those[number] if number < len(those) else None for those in (lines, others))
    return f"differs from line {number + 1} on\n  stored: {show(line)}\n  made:   {show(other)}"


def check(files):
    """Compare files, a path and its bytes each, with those stored; leaves the program with status 1 where one differs."""
    repository = pathlib.Path(__file__).resolve().parent.parent
    found = [(path, difference(path, made)) for path, made in sorted(files.items())]
    wrong = [(path, what) for path, what in found if what]
    for path, what in wrong:
        print(f"{path.relative_to(repository)} {what}")
    if wrong:
        sys.exit(1)
    print(f"{len(files)} files are as made")


def write(files):
    for path, made in files.items():
        path.parent.mkdir(exist_ok=True)
        path.write_bytes(made)
