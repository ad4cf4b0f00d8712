"""The sources keep the house rules that a machine can see, and the page that reads them aloud quotes them as they are."""

import os
import re
import unittest

import kit

WIDEST = 140
LONGEST = 40
LIMITS = ("2000", "4000", "4002", "10000", "60000", "100000")
NAMING = ("crates/rules/specs/Limits.antt", "crates/rules/src/lib.rt")


def sources(kinds=(".rt", ".antt")):
    """Each source of the crates by its path from the root; what `rt` keeps in out/ is none."""
    found = []
    for at, folders, files in os.walk(kit.CRATES):
        folders[:] = [name for name in folders if name != "out"]
        found += [os.path.join(at, name) for name in files if name.endswith(kinds)]
    for path in sorted(found):
        with open(path, encoding="utf-8") as file:
            yield os.path.relpath(path, kit.ROOT), file.read()


def wide_lines(text):
    return [number for number, line in enumerate(text.split("\n"), 1) if len(line) > WIDEST]


def long_functions(text):
    """The functions of a .rt file whose body has LONGEST lines or more: `rt fmt` puts a body between two braces at the margin."""
    found, name, opened = [], None, None
    for number, line in enumerate(text.split("\n"), 1):
        start = re.match(r'(?:pub )?(?:extern "C" )?fn (\w+)', line)
        if start:
            name, opened = start.group(1), None
        if name and opened is None and (line == "{" or line.endswith(" {") and not line.startswith(" ")):
            opened = number
        if name and line == "}":
            if number - opened > LONGEST:
                found.append(name)
            name = None
    return found


def bare_limits(text, comment):
    """The limits that stand as numbers in code; lines of comment and words in quotes may say them."""
    code = "\n".join(re.sub(r'"[^"]*"', "", line) for line in text.split("\n") if not line.lstrip().startswith(comment))
    return [limit for limit in LIMITS if re.search(rf"(?<![\w.]){limit}(?!\w)", code)]


def quotes(page):
    return re.findall(r"^```\n(.*?)^```", page, re.M | re.S)


def joined(text):
    return " ".join(text.split())


def misses(edit, read):
    """The texts that a must-fail edit is to find once in a file of its crate, and does not: the gate refuses such an edit, late."""
    pairs = re.findall(r"^file: (.*)\nold: (.*)\n", edit, re.M)
    return [old for path, old in pairs if read(path).count(old) != 1]


class Rules(unittest.TestCase):

    def test_a_wide_line_is_seen(self):
        self.assertEqual(wide_lines("a\n" + "é" * 140 + "\n" + "b" * 141), [3])

    def test_a_long_function_is_seen(self):
        short = "fn short()\n{\n" + "    x\n" * 39 + "}\n"
        long = "pub fn long() -> u32 {\n" + "    x\n" * 40 + "}\n"
        self.assertEqual(long_functions(short + "\n" + long), ["long"])

    def test_a_bare_limit_is_seen(self):
        self.assertEqual(bare_limits('let a = 2000; // 60000\n// 4000\nb"100000" x4002', "//"), ["2000", "60000"])

    def test_a_quote_is_seen(self):
        self.assertEqual([joined(quote) for quote in quotes("a\n```\nb  c\n d\n```\n")], ["b c d"])


    def test_an_edit_that_misses_is_seen(self):
        def edit(old):
            return f"file: src/lib.rt\nold: {old}\nnew: d\n"

        text = {"src/lib.rt": "a b c b"}.get
        self.assertEqual([misses(edit(old), text) for old in "abx"], [[], ["b"], ["x"]])


class Sources(unittest.TestCase):

    def test_lines(self):
        self.assertEqual([(path, wide_lines(text)) for path, text in sources() if wide_lines(text)], [])

    def test_functions(self):
        self.assertEqual([(path, long_functions(text)) for path, text in sources((".rt",)) if long_functions(text)], [])

    def test_limits(self):
        bare = [(path, bare_limits(text, "//" if path.endswith(".rt") else "--")) for path, text in sources() if path not in NAMING]
        self.assertEqual([(path, found) for path, found in bare if found], [])

    def test_edits(self):
        def read(crate):
            return lambda path: texts[os.path.join(crate, path)]

        texts = dict(sources((".rt", ".antt", ".edit")))
        edits = [(path, misses(text, read(os.path.dirname(os.path.dirname(path))))) for path, text in texts.items()
                 if path.endswith(".edit")]
        self.assertGreater(len(edits), 100)
        self.assertEqual([(path, found) for path, found in edits if found], [])

    def test_what_the_reading_page_quotes(self):
        with open(os.path.join(kit.ROOT, "docs", "READING.md"), encoding="utf-8") as file:
            blocks = [joined(quote) for quote in quotes(file.read())]
        texts = [joined(text) for _, text in sources()]
        self.assertGreater(len(blocks), 3)
        self.assertEqual([block for block in blocks if not any(block in text for text in texts)], [])


if __name__ == "__main__":
    unittest.main()
