#!/usr/bin/env python3
"""Builds tools/oracle where it is missing or stale; cargo decides."""

import os
import pathlib
import subprocess
import sys

REPOSITORY = pathlib.Path(__file__).resolve().parent.parent
TARGET = REPOSITORY / "target" / "oracle"
ORACLE = TARGET / "release" / "oracle"
REACH = TARGET / "release" / "reach"
CONES = TARGET / "release" / "cones"
CONVERT = TARGET / "release" / "convert"
WRONG = TARGET / "release" / "wrong"


def holds_source(place):
    return (place / "src" / "mapper.rs").is_file()


def origin():
    """The repository that this one was cloned from or is a worktree of, where it is on this machine."""
    for asked in (["config", "--get", "remote.origin.url"], ["rev-parse", "--path-format=absolute", "--git-common-dir"]):
        done = subprocess.run(["git", "-C", str(REPOSITORY), *asked], stdout=subprocess.PIPE, stderr=subprocess.DEVNULL)
        place = done.stdout.decode().strip().removeprefix("file://")
        if place.startswith("/"):
            yield pathlib.Path(place)


def source():
    """The directory with the Rust's src/mapper.rs: FBS_MAP_SRC, or shared/docs/src beside the repository, beside a directory
    above it, or so beside its origin; None where none of them has it."""
    named = os.environ.get("FBS_MAP_SRC")
    if named:
        place = pathlib.Path(named).resolve()
        return place if holds_source(place) else None
    for start in (REPOSITORY, *origin()):
        for above in start.parents:
            place = above / "shared" / "docs" / "src"
            if holds_source(place):
                return place
    return None


def build():
    """The oracle's path, after a build that said nothing."""
    place = source()
    if place is None:
        sys.exit("no Rust source: set FBS_MAP_SRC to the directory that holds src/mapper.rs")
    environment = dict(os.environ, CARGO_TARGET_DIR=str(TARGET), FBS_MAP_SRC=str(place))
    done = subprocess.run(
        ["cargo", "build", "--release", "--offline", "--quiet"],
        cwd=REPOSITORY / "tools" / "oracle",
        env=environment,
        stdout=subprocess.PIPE,
        stderr=subprocess.STDOUT,
    )
    if done.returncode != 0:
        sys.stderr.write(done.stdout.decode(errors="replace"))
        sys.exit("the oracle does not build")
    return str(ORACLE)


def run(program, stream, *arguments):
    """What one of the programs prints for the stream."""
    done = subprocess.run([str(program), *arguments], input=stream, stdout=subprocess.PIPE)
    if done.returncode != 0:
        sys.exit(f"{program.name} failed with status {done.returncode}")
    return done.stdout


if __name__ == "__main__":
    build()
    print(ORACLE.relative_to(REPOSITORY))
