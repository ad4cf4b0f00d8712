"""README.md draws the crates as crates.txt has them, and says of each what it holds."""

import glob
import os
import re
import unittest

import graph

DIAMOND = """
# What comes first.
base:
left: base io
right: base          # the other way
top: base left right libc
"""


class Drawing(unittest.TestCase):

    def test_needs_of_the_kit_are_left_out(self):
        self.assertEqual(graph.needs_in(DIAMOND),
                         {"base": [], "left": ["base"], "right": ["base"], "top": ["base", "left", "right"]})

    def test_only_the_nearest_are_dotted(self):
        self.assertEqual(graph.nearest(graph.needs_in(DIAMOND))["top"], ["left", "right"])

    def test_a_small_one(self):
        self.assertEqual(graph.drawing(graph.needs_in(DIAMOND)),
                         ["base ───┐",
                          "left ───●──┐",
                          "right ──●──┼──┐",
                          "top ───────●──●"])

    def test_strokes_are_used_again_and_cross(self):
        text = "a:\nb: a\nc: b\nd:\ne: d\nf: c e\ng:\n"
        self.assertEqual(graph.drawing(graph.needs_in(text)),
                         ["a ──┐",
                          "b ──●──┐",
                          "c ──┬──●",
                          "d ──┼──┐",
                          "e ──┼──●──┐",
                          "f ──●─────●",
                          "g"])

    def test_every_need_can_be_read_off(self):
        """The drawing, read back, has each crate's needs, once those of needs are added."""
        needs = graph.needs_in(graph.text_of(graph.CRATES))
        found, strokes = {}, {}
        for line in graph.drawing(needs):
            name = line.split()[0]
            found[name] = {strokes[at] for at, sign in enumerate(line) if sign == "●"}
            strokes.update({at: name for at, sign in enumerate(line) if sign in "┐┬"})
        self.assertEqual({name: graph.below(found, name) for name in found},
                         {name: graph.below(needs, name) for name in needs})


class Readme(unittest.TestCase):

    def test_the_drawing_is_that_of_crates_txt(self):
        page = graph.text_of(graph.README)
        self.assertEqual(graph.with_block(page, graph.block(graph.text_of(graph.CRATES))), page,
                         "run `python3 tests/graph.py --write`")

    def test_a_page_without_its_marks_is_noticed(self):
        with self.assertRaises(ValueError):
            graph.with_block("no marks", "")

    def test_every_crate_is_in_the_table(self):
        _, _, rest = graph.text_of(graph.README).partition("| Crate | Holds |\n")
        table, _, _ = rest.partition("\n\n")
        named = [name for row in table.splitlines()
                 for name in re.findall(r"`(\w+)`", row.split("|")[1])]
        self.assertEqual(sorted(named), sorted(graph.needs_in(graph.text_of(graph.CRATES))))

    def test_every_crate_has_its_folder(self):
        there = [os.path.basename(path) for path in glob.glob(os.path.join(graph.ROOT, "crates", "*"))]
        self.assertEqual(sorted(there), sorted(graph.needs_in(graph.text_of(graph.CRATES))))


if __name__ == "__main__":
    unittest.main()
