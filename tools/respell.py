#!/usr/bin/env python3
"""Spells the definitions and laws of this repository as today's Rattle spells names.

usage: python3 tools/respell.py        once, at the top, right after the toolchain's own port.py

Words are in snake case: `isPresent` is `is_present`, `table-clear` is `table_clear`. A dash stays only where it joins two names, as in
`take-up_to`. A law that would meet its function's name ends in `_lem`. Types and modules keep their capitals.

respell.tsv has what is renamed here, respelled.tsv what port.py had renamed before: files that port.py does not turn (edits, pages, tests)
get both. Functions of src/, exported C names and text in quotes keep their names.
"""

import glob
import os
import re

HERE = os.path.dirname(os.path.realpath(__file__))
LETTER = r"[\w'\u00b7\u25cc-]"


def table(name):
    with open(os.path.join(HERE, name), encoding="utf-8") as f:
        return dict(line.rstrip("\n").split("\t") for line in f)


RENAMED = table("respell.tsv")
BY_PORT = table("respelled.tsv")
BOTH = {old: RENAMED.get(new, new) for old, new in BY_PORT.items()}
BOTH |= {old: new for old, new in RENAMED.items() if re.search(r"[A-Z-]", old)}
# The proof of one function of src/: behind a dot stands a step of it, which is named after a function that it calls.
OF_ONE_FUNCTION = re.compile(r"/proofs/.*/")


def pattern(names):
    inside = "|".join(re.escape(n) for n in sorted(names, key=len, reverse=True))
    return re.compile(rf"(?<!{LETTER})({inside})(?!{LETTER})")


def outside_quotes(text, turn):
    """turn applied to what stands in no string."""
    parts = re.split(r'("(?:[^"\\\n]|\\.)*")', text)
    return "".join(p if i % 2 else turn(p) for i, p in enumerate(parts))


def turned(path, text):
    if path.endswith(".antt"):
        steps = OF_ONE_FUNCTION.search(path)

        def name(m):
            behind_dot = steps and text[m.start() - 1 : m.start()] == "."
            return m[0].replace("-", "_") if behind_dot and m[0].islower() else RENAMED[m[0]]

        return pattern(RENAMED).sub(name, text)
    # In Rust a word in snake case is a function or a variable: only the others are renamed.
    names = {n: v for n, v in (BOTH if not path.endswith(".rt") else RENAMED).items() if re.search(r"[A-Z-]", n)}
    at = pattern(names)
    return outside_quotes(text, lambda p: at.sub(lambda m: names[m[0]], p))


def backticked(text):
    """A page: names stand between backticks, and what stands behind a stroke is a file."""
    at = re.compile("(?<!/)" + pattern(BOTH).pattern)
    return re.sub(r"`[^`\n]+`", lambda m: at.sub(lambda n: BOTH[n[0]], m[0]), text)


def main():
    files = [p for p in glob.glob("crates/**/*", recursive=True) if "/out/" not in p and p.endswith((".antt", ".rt", ".edit"))]
    pages = glob.glob("docs/**/*.md", recursive=True) + ["README.md", "CONTRIBUTING.md"]
    for path in sorted(files + pages):
        with open(path, encoding="utf-8", newline="") as f:
            text = f.read()
        new = backticked(text) if path in pages else turned(path, text)
        if new != text:
            with open(path, "w", encoding="utf-8", newline="") as f:
                f.write(new)


if __name__ == "__main__":
    main()
