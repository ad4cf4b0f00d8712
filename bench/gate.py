"""When `rt ci` was done with each crate, from the lines that it prints.

`rt` says of a crate that it is proved, or that it is kept from an earlier run
of the same files, and of a must-fail edit what came of it.  It says no times:
bench/run puts before each line how many seconds after the start of the run it
came.  Crates go side by side, so this is when a proof ended and not how long it
took.  A log without such marks has no times.
"""

import re

MARKED = re.compile(r"\[ *(\d+) s\] (.*)$")
PROVED = re.compile(r"rt: (\w+) (?:proved|NOT PROVED)$")
KEPT = re.compile(r"rt: (\w+) is kept: ")
TESTED = re.compile(r"rt: (\w+): its tests are (?:proved|NOT PROVED)$")
TRIED = re.compile(r"rt: must-fail (\w+)/[\w.-]+: ")


class Times:
    """Of one crate: whether its proof is kept, when it and that of its tests ended (None where that is not known), and its edits."""

    def __init__(self):
        self.kept = False
        self.proof = None
        self.tests = None
        self.edits = 0


def marked(line, seconds):
    """The line with the seconds before it."""
    return f"[{seconds:4d} s] {line}"


def by_crate(lines):
    """The times of each crate that the lines speak of, in their order."""
    crates = {}

    def of(found):
        return crates.setdefault(found.group(1), Times())

    for line in map(str.rstrip, lines):
        seconds = None
        if found := MARKED.match(line):
            seconds, line = int(found.group(1)), found.group(2)
        if found := KEPT.match(line):
            of(found).kept = True
        elif found := PROVED.match(line):
            of(found).proof = seconds
        elif found := TESTED.match(line):
            of(found).tests = seconds
        elif found := TRIED.match(line):
            of(found).edits += 1
    return crates


def said(seconds):
    return "-" if seconds is None else f"{seconds} s"


def table(crates):
    """The lines of a table by crate, with a last line over all of them."""
    rows = [("crate", "proved at", "its tests", "edits")]
    for name, times in crates.items():
        rows.append((name, "kept" if times.kept else said(times.proof), said(times.tests), times.edits))
    every = list(crates.values())
    rows.append(("all", said(max((times.proof for times in every if times.proof is not None), default=None)),
                 said(max((times.tests for times in every if times.tests is not None), default=None)),
                 sum(times.edits for times in every)))
    for name, *cells in rows:
        yield f"{name:<12}" + "".join(f"{cell:>12}" for cell in cells)
