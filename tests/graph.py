"""Draws the crates of crates.txt, for README.md.

python3 tests/graph.py            prints the drawing
python3 tests/graph.py --write    puts it into README.md, between its two marks

A crate has a line of text.  A stroke goes down from the end of its line to the
crates that stand on it, each of which has a dot on the stroke.  Only the nearest
are dotted: what a crate needs and also has through another is left out, and so
are the kit's own libraries.
"""

import os
import re
import sys

ROOT = os.path.dirname(os.path.dirname(os.path.abspath(__file__)))
CRATES = os.path.join(ROOT, "crates.txt")
README = os.path.join(ROOT, "README.md")

BEGIN = "<!-- the crates, drawn from crates.txt by: python3 tests/graph.py --write -->"
END = "<!-- the end of the drawing -->"

WIDTH = 3       # of a stroke and what parts it from the next


def needs_in(text):
    """The crates of a crates.txt in their order, each with the crates of it that it needs.  A word behind a name says what is built of it."""
    said = [line.partition("#")[0].partition(":") for line in text.splitlines()]
    needs = {name.split()[0]: others.split() for name, colon, others in said if colon}
    return {name: [other for other in others if other in needs]
            for name, others in needs.items()}


def below(needs, name):
    """All crates that a crate stands on."""
    found = set()
    for other in needs[name]:
        found |= {other} | below(needs, other)
    return found


def nearest(needs):
    """The needs of each crate without those that it also has through another."""
    return {name: [other for other in others
                   if not any(other in below(needs, third) for third in others)]
            for name, others in needs.items()}


def in_order(needs):
    """The crates, each after those that it needs, and otherwise in their order."""
    placed = []

    def place(name):
        if name not in placed:
            for other in needs[name]:
                place(other)
            placed.append(name)

    for name in needs:
        place(name)
    return placed


def drawn_line(name, stem, strokes, dotted, own):
    """One crate's line: its name, dots and crossings on the strokes, and the start of its own."""
    met = [at for at, held in enumerate(strokes) if at == own or held in dotted]
    last = max(met, default=-1)
    line = name + " " + "─" * (stem - len(name) - 1) if met else name.ljust(stem)
    for at, held in enumerate(strokes):
        if at == own:
            sign = "┐" if at == last else "┬"
        elif held in dotted:
            sign = "●"
        elif held is not None:
            sign = "┼" if at < last else "│"
        else:
            sign = "─" if at < last else " "
        line += sign + ("─" if at < last else " ") * (WIDTH - 1)
    return line.rstrip()


def drawing(needs):
    """The lines of the drawing."""
    near = nearest(needs)
    order = in_order(needs)
    left = {name: [user for user in order if name in near[user]] for name in order}
    stem = max(map(len, order)) + 3
    strokes, lines = [], []
    for name in order:
        own = None
        if left[name]:
            own = strokes.index(None) if None in strokes else len(strokes)
            strokes[own:own + 1] = [name]
        lines.append(drawn_line(name, stem, strokes, near[name], own))
        for other in near[name]:
            left[other].remove(name)
        strokes = [held if held and left[held] else None for held in strokes]
    return lines


def block(crates_text):
    """What README.md holds, with its marks."""
    return "\n".join([BEGIN, "```", *drawing(needs_in(crates_text)), "```", END])


def with_block(page, made):
    """The page with the drawing between its marks put in."""
    marked = re.compile(re.escape(BEGIN) + ".*?" + re.escape(END), re.DOTALL)
    if len(marked.findall(page)) != 1:
        raise ValueError("README.md has not just one pair of marks")
    return marked.sub(lambda _: made, page)


def text_of(path):
    with open(path, encoding="utf-8") as file:
        return file.read()


def main(words):
    made = block(text_of(CRATES))
    if words == ["--write"]:
        page = with_block(text_of(README), made)
        with open(README, "w", encoding="utf-8") as file:
            file.write(page)
    elif not words:
        print("\n".join(drawing(needs_in(text_of(CRATES)))))
    else:
        print(__doc__, file=sys.stderr)
        return 2
    return 0


if __name__ == "__main__":
    sys.exit(main(sys.argv[1:]))
