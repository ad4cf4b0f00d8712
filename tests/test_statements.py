"""docs/STATEMENTS.md and the other pages name only what is there.

The page's tables are read by their columns.  A name of a column such as
"Said by" is declared in a file of its row: a function of the code, a type, a
definition or a theorem.  A proof, an edit and a test that the page names
exist.  A public call has no `requires`, its contract is the one promise that
the page gives for it, and the law that only one answer fits is about that.
In the other pages a path exists, and what is said to stand in it is declared
there; the landings' notes speak of the tree of their day.
"""

import glob
import os
import re
import unittest

import kit

ROOT = os.path.dirname(os.path.dirname(os.path.abspath(__file__)))
PAGE = os.path.join(ROOT, "docs", "STATEMENTS.md")
OTHER_PAGES = ("README.md", "CONTRIBUTING.md", "docs/DECISIONS.md", "docs/READING.md")

# Columns of names that are declared in the files of the row's column "File".
DECLARED = ("Said by", "Function or type", "Call")

# The column of the public calls' contracts: names that the contract uses.
CONTRACT = "Contract"

# A name of the proofs may hold letters, digits, dashes, dots in the middle
# and primes; a word ends where none of these goes on.
LETTER = r"[\w'′·-]"

# What stands before a name where it is declared: in the code, in the tests, in
# the proofs.
IN_CODE = r"(?:\bfn|\benum|\bstruct|\bconst)\s+{name}\b"
VARIANT = r"^    {name}(?:,| \{{)"
IN_TESTS = r"^(?:class|def)\s+{name}\b"
IN_PROOFS = r"^\s*(?:(?:unfoldable|abbrev|pub|record|data)\s+)*{name}\s+[:({{]"


class Row:
    """A row of a table: its line number and, by column, its text and what stands there in backticks."""

    def __init__(self, number, head, cells):
        self.number = number
        self.cells = dict(zip(head, cells))

    def text(self, column):
        return self.cells.get(column, "")

    def tokens(self, *columns):
        return [token for column in columns
                for token in re.findall(r"`([^`]+)`", self.text(column))]

    def all_tokens(self):
        return self.tokens(*self.cells)

    def names(self):
        return self.tokens(*DECLARED)


def rows():
    """The rows of all tables of the page."""
    head = None
    with open(PAGE, encoding="utf-8") as page:
        for number, line in enumerate(page, 1):
            if not line.startswith("|"):
                head = None
                continue
            cells = [cell.strip() for cell in line.strip().strip("|").split("|")]
            if head is None:
                head = cells
            elif not line.startswith("|---"):
                yield Row(number, head, cells)


def is_path(token):
    return "/" in token and " " not in token


def path_of(token):
    """The file that the page means by a path: see "How to read the tables"."""
    if token.startswith(("tests/", "examples/", "docs/", "bench/")):
        return token
    path = os.path.join("crates", token)
    if re.fullmatch(r"\w+/must-fail/\w+", token):
        return path + ".edit"
    return path


def exists(path):
    return os.path.exists(os.path.join(ROOT, path))


def is_proof(token):
    """Whether the page names the proof of a function."""
    return re.fullmatch(r"\w+/proofs/\w+", token) is not None


def proof_stands(token):
    """Whether there is such a proof: what is written of it in the function's folder; or, without one, all of it is found by the check
    from the function's contract."""
    crate, _, name = token.split("/")
    if any(exists(os.path.join("crates", token, file)) for file in ("Proof.antt", "Answers.antt", "Invariants.antt")):
        return True
    sources = glob.glob(os.path.join(ROOT, "crates", crate, "src", "*.rt"))
    return any(has_contract(text_of(path), name) for path in sources)


def has_contract(source, name):
    """Whether a function stands in the text of a source with a clause that says what it returns or leaves."""
    found = re.search(rf"^ *(?:pub )?(?:extern \"C\" )?fn {name}\b(?:(?!\bfn ).)*?(?:^ *\{{$| \{{$)", source, re.MULTILINE | re.DOTALL)
    return found is not None and stands_in("ensures", found.group(0))


def text_of(path):
    with open(os.path.join(ROOT, path), encoding="utf-8") as file:
        return file.read()


def stands_in(name, text):
    return re.search(rf"(?<!{LETTER}){re.escape(name)}(?!{LETTER})", text) is not None


def declares(path, name):
    """Whether a file declares a name: as a function, a type, a definition or a theorem."""
    forms = {".antt": (IN_PROOFS,), ".rt": (IN_CODE, VARIANT),
             ".py": (IN_TESTS,)}[os.path.splitext(path)[1]]
    text = text_of(path)
    return any(re.search(form.format(name=re.escape(name)), text, re.MULTILINE)
               for form in forms)


def contract_of(path, call):
    """The head of a public function, from its name to its body."""
    found = re.search(rf"^pub (?:extern \"C\" )?fn {call}\(.*?^\{{", text_of(path),
                      re.MULTILINE | re.DOTALL)
    return found and found.group(0)


def statement_of(path, law):
    """What a theorem says: from its name to the lines that prove it."""
    found = re.search(rf"^ *pub {re.escape(law)} :.*?(?=^ *(?:unfolding|{re.escape(law)}) )", text_of(path),
                      re.MULTILINE | re.DOTALL)
    return found.group(0) if found else ""


def tests_there():
    return {name for path in glob.glob(os.path.join(ROOT, "tests", "test_*.py"))
            for name in re.findall(r"^    def (test_\w+)\(", text_of(path), re.MULTILINE)}


class Statements(unittest.TestCase):

    def test_the_page_has_its_tables(self):
        said = [row for row in rows() if row.tokens("Said by")]
        self.assertGreater(len(said), 100)

    def test_every_row_is_whole(self):
        for row in rows():
            if "Said by" not in row.cells:
                continue
            for column in row.cells:
                with self.subTest(line=row.number, column=column):
                    self.assertTrue(row.text(column))

    def test_every_path_is_there(self):
        for row in rows():
            for token in filter(is_path, row.all_tokens()):
                with self.subTest(line=row.number, path=token):
                    self.assertTrue(proof_stands(token) if is_proof(token) else exists(path_of(token)))

    def test_every_name_is_declared_in_a_file_of_its_row(self):
        for row in rows():
            files = [path_of(token) for token in row.tokens("File")]
            for name in row.names():
                with self.subTest(line=row.number, name=name):
                    self.assertTrue(any(declares(path, name) for path in files))

    def test_every_file_of_a_row_declares_a_name_of_it(self):
        for row in rows():
            for path in map(path_of, row.tokens("File")):
                with self.subTest(line=row.number, path=path):
                    names = row.names()
                    self.assertTrue(any(declares(path, name) for name in names))

    def test_every_proof_is_one_of_a_function_or_of_a_named_theorem(self):
        for row in rows():
            said = row.names()
            for token in filter(is_path, row.tokens("Proved in")):
                with self.subTest(line=row.number, proof=token):
                    if token.endswith("/stdout"):
                        continue
                    crate, kind, name = token.split("/")
                    self.assertIn(kind, ("proofs", "specs"))
                    if kind == "proofs" and not name.endswith(".antt"):
                        sources = glob.glob(os.path.join(ROOT, "crates", crate, "src", "*.rt"))
                        self.assertTrue(any(declares(path, name) for path in sources))
                    elif token in row.tokens("File"):
                        self.assertTrue(any(declares(path_of(token), n) for n in said))

    def test_every_test_is_there(self):
        there = tests_there()
        for row in rows():
            for name in row.all_tokens():
                if name.startswith("test_"):
                    with self.subTest(line=row.number, test=name):
                        self.assertIn(name, there)

    def test_every_law_beside_a_path_is_declared_there(self):
        # Such as: `counts-decided` in `theory/specs/Decided.antt`.
        found = re.findall(r"`([^` /]+)` in\s+`([^`]+/[^`]+)`", text_of("docs/STATEMENTS.md"))
        self.assertGreater(len(found), 10)
        for name, token in found:
            with self.subTest(name=name, path=token):
                path = token if token.startswith("crates/") else path_of(token)
                self.assertTrue(declares(path, name))

    def test_every_must_fail_edit_of_the_page_still_fits_its_file(self):
        for row in rows():
            for token in (t for t in row.all_tokens() if "/must-fail/" in t):
                with self.subTest(line=row.number, edit=token):
                    lines = text_of(path_of(token)).split("\n")
                    edit = dict(l.split(": ", 1) for l in lines if ": " in l)
                    crate = os.path.join("crates", token.split("/")[0])
                    source = text_of(os.path.join(crate, edit["file"]))
                    self.assertIn(edit["old"].strip(), source)


def paths_in(page):
    """The paths from the root that a page has in backticks; one of `Pn` stands for those of every request."""
    found = re.findall(r"`((?:crates|docs|tests|bench|bin|examples)/[\w./-]+)`", page)
    return [path for path in found if not re.search(r"\bPn\b", path)]


def places_in(page):
    """Each name that a page has beside the path where it stands, as in: `a`, `b` and `c` in `crates/d`."""
    found = re.findall(rf"((?:`{LETTER}+`(?:,| and)?\s+)+)in\s+`((?:crates|tests)/[\w./-]+)`", page)
    return [(name, path) for names, path in found for name in re.findall(r"`([^`]+)`", names)]


def sources_of(path):
    """A file, or all sources of a crate."""
    if not os.path.isdir(os.path.join(ROOT, path)):
        return [path]
    found = glob.glob(os.path.join(ROOT, path, "**", "*"), recursive=True)
    return [file for file in found if file.endswith((".rt", ".antt"))]


class OtherPages(unittest.TestCase):

    def test_every_path_is_there(self):
        for page in OTHER_PAGES:
            found = paths_in(text_of(page))
            self.assertTrue(found, page)
            for path in found:
                with self.subTest(page=page, path=path):
                    self.assertTrue(exists(path))

    def test_every_name_is_declared_where_the_page_has_it(self):
        found = [(page, *place) for page in OTHER_PAGES for place in places_in(text_of(page))]
        self.assertGreater(len(found), 20)
        for page, name, path in found:
            with self.subTest(page=page, name=name, path=path):
                self.assertTrue(exists(path) and any(declares(source, name) for source in sources_of(path)))


class PublicCalls(unittest.TestCase):

    def calls(self):
        found = [row for row in rows() if row.tokens("Call")]
        self.assertEqual(len(found), 14)
        for row in found:
            call, = row.tokens("Call")
            path, = map(path_of, row.tokens("File"))
            yield row, path, call

    def test_every_contract_uses_what_the_page_says(self):
        for row, path, call in self.calls():
            with self.subTest(call=call):
                contract = contract_of(path, call)
                self.assertIsNotNone(contract, "no public function of that name")
                self.assertIn("ensures", contract)
                for name in row.tokens(CONTRACT):
                    self.assertTrue(stands_in(name, contract), name)

    def test_a_contract_is_the_one_promise_that_its_law_is_about(self):
        for row, path, call in self.calls():
            with self.subTest(call=call):
                promise, = row.tokens(CONTRACT)
                self.assertEqual(contract_of(path, call).count("ensures"), 1)
                law, token = re.search(r"`([^`]+)` in `([^`]+)`", row.text("Only one answer fits")).groups()
                statement = statement_of(path_of(token), law)
                self.assertEqual(len(re.findall(rf"(?<![\w-]){promise}(?![\w-])", statement)), 2)

    def test_no_public_call_asks_anything(self):
        for _, path, call in self.calls():
            with self.subTest(call=call):
                self.assertFalse(stands_in("requires", contract_of(path, call) or ""))

    def test_every_function_for_c_is_on_the_page(self):
        named = {call for _, _, call in self.calls()}
        there = re.findall(r'^pub extern "C" fn (\w+)\(', text_of("crates/thrumcomb/src/lib.rt"),
                           re.MULTILINE)
        self.assertEqual(len(there), 7)
        self.assertLessEqual(set(there), named)


class Assumed(unittest.TestCase):
    """What a program assumes, by the check that built it."""

    def test_every_program_assumes_what_the_page_says(self):
        programs = [os.path.basename(os.path.dirname(os.path.dirname(path)))
                    for path in glob.glob(os.path.join(ROOT, "crates", "*", "src", "main.rt"))]
        said = {row.text("Program").strip("`"): row.text("`axioms=`")
                for row in rows() if row.text("Program")}
        self.assertEqual(set(said), set(programs))
        for name, count in said.items():
            with self.subTest(program=name):
                found = re.search(r"^logic=proved .*?axioms=(\d+)", kit.check_of(name), re.MULTILINE)
                self.assertEqual(found and found.group(1), count)

    def test_no_public_call_reaches_a_c_function(self):
        needs = {}
        for line in text_of("crates.txt").splitlines():
            name, colon, others = line.partition("#")[0].partition(":")
            if colon:
                needs[name.split()[0]] = others.split()
        reached, left = set(), ["thrumcomb"]
        while left:
            name = left.pop()
            reached.add(name)
            left += [other for other in needs.get(name, []) if other not in reached]
        self.assertLessEqual({"counts", "engine", "reader", "writer", "converter"}, reached)
        self.assertFalse(reached & {"libc", "io", "os"})

    def test_no_public_call_assumes_anything_of_c(self):
        """Every crate has std, and so C's functions at hand: the check of the archive says that none is reached."""
        check = kit.check_of("thrumcomb")
        proved, = re.findall(r"^logic=proved .*", check, re.MULTILINE)
        self.assertNotIn("axioms=", proved)
        self.assertRegex(check, r"(?m)^axioms libc: none reached")


class TheChecks(unittest.TestCase):
    """The checks above notice what they are there for."""

    def test_a_name_that_is_gone_would_be_noticed(self):
        self.assertFalse(stands_in("count", "counts recount count-x count'"))
        self.assertTrue(stands_in("count", "the count is"))

    def test_a_name_that_is_only_used_is_not_declared(self):
        counts = "crates/rules/specs/Counts.antt"
        self.assertTrue(declares(counts, "free_count"))
        self.assertFalse(declares(counts, "task_count"))
        self.assertTrue(declares("crates/counts/src/lib.rt", "counts"))
        self.assertFalse(declares("crates/counts/src/lib.rt", "CountsPromise"))
        self.assertTrue(declares("crates/rules/src/lib.rt", "Demoted"))
        self.assertFalse(declares("crates/theory/specs/Demand3.antt", "free_slot"))

    def test_names_and_paths_of_a_page_are_found(self):
        page = "`..` `a`, `b-c` and `d` in\n`crates/e/src`, `docs/landings/Pn.md`, `f` of `bench/run`"
        self.assertEqual(paths_in(page), ["crates/e/src", "bench/run"])
        self.assertEqual(places_in(page), [(name, "crates/e/src") for name in ("a", "b-c", "d")])

    def test_a_name_of_a_crate_is_declared_in_one_of_its_sources(self):
        sources = sources_of("crates/counts")
        self.assertTrue(any(declares(path, "counts") for path in sources))
        self.assertFalse(any(declares(path, "case_fault") for path in sources))

    def test_a_proof_that_is_gone_would_be_noticed(self):
        self.assertTrue(proof_stands("counts/proofs/count_of"))
        self.assertFalse(proof_stands("counts/proofs/no_such_function"))

    def test_a_function_without_a_contract_has_no_proof(self):
        source = ("fn plain(x: u32) -> u32 {\n    x\n}\n\npub fn next(x: u32) -> u32\n    ensures { result ≡ x }\n{\n    x\n}\n\n"
                  "fn last(x: u32) -> u32\n    requires { x ≤ 3 }\n{\n    x\n}\n")
        self.assertEqual([has_contract(source, name) for name in ("plain", "next", "last", "nex")], [False, True, False, False])

    def test_a_contract_ends_where_the_body_starts(self):
        contract = contract_of("crates/counts/src/lib.rt", "counts")
        self.assertIn("CountsPromise", contract)
        self.assertNotIn("put_counts", contract)
        self.assertIsNone(contract_of("crates/counts/src/lib.rt", "put_counts"))


if __name__ == "__main__":
    unittest.main()
