"""The built program prints what document 01 says, and what replay.py says."""

import glob
import hashlib
import os
import pty
import shutil
import subprocess
import tempfile
import time
import tty
import unittest
from concurrent.futures import ThreadPoolExecutor

import cases
import kit
import replay

HERE = os.path.dirname(os.path.abspath(__file__))
ROOT = os.path.dirname(HERE)
RUNNER = os.path.join(ROOT, "bin", "exec")
PROGRAM = kit.PROGRAM
SCRIPT = os.path.join(ROOT, "thrumcomb")
EXAMPLES = os.path.join(ROOT, "examples")

DIGEST = os.path.join(ROOT, "bin", "digest")

USAGE = b"""usage: thrumcomb [-q] [counts | slot N | write | slots | log FILE] < CASE
       thrumcomb help | -h | --help | --version

without a word  the replay: run, a job line for each release, total
counts          the contention-free count of each task
slot N          the tasks that run in slot N
write           the case in its canonical text
slots           the slot log of the replay: slot, time and the tasks that run, a line a slot
log FILE        whether the slot log in FILE keeps the rules of the case: accepted, or refused
-q              leaves out the words on standard error for a refused case or log

A case that breaks a rule, or has a task that is never released, prints refused, number, place.
Lines of a case and of a slot log end with a newline. One carriage return right before it is left
out; anywhere else a return is badly formed. What is written has bare newlines.
A slot log may break equal deadlines either way. In it a number of ten digits or with a leading
zero is 17, a number that is no task of the table 18.
The exit status is 0; 2 for a refused case or log; 64 for words that ask for nothing that there
is; 1 where the case or FILE could not be read, the answer not be written, or the program not be
built.
"""

# What is said of each refusal that a text can meet, P being its place.
REASONS = {
    1: "text: over 60,000 bytes",
    2: "line P: badly formed",
    3: "line P: out of order or missing",
    4: "processors: not 1 to 32",
    5: "tasks: not 1 to 32, or not three numbers each",
    6: "task P: needs 1 ≤ C ≤ D ≤ T ≤ 10,000",
    7: "end: over 100,000",
    8: "release P: names no task of the table",
    9: "release P: not later by (time, task) than the one before",
    10: "release P: comes less than T after the last release of its task",
    11: "release P: its time is not before the end",
    12: "releases: over 2,000, or not two numbers each",
    15: "slot: not before the end",
    16: "task P: is never released, so no verdict covers it",
}

# The case and the lines that document 01 prints.
PRINTED_CASE = b"""procs 2
policy edf-cf
task 10 1 4
task 10 1 1
task 10 5 5
end 10
release 0 1
release 0 2
release 0 3
""".replace(b" ", b"\t")

PRINTED_LINES = b"""run edf-cf 2 3 10
job 0 1 4 met 2 0
job 0 2 1 met 1 -
job 0 3 5 met 5 -
total 3 3 0 0
"""

# The same case with no release of task 3.
WITHOUT_TASK_3 = PRINTED_CASE.replace(b"release\t0\t3\n", b"")

# Words that ask for nothing that there is, and the first that is not known; None where each is known by itself.
WRONG_WORDS = [
    ([""], ""),
    (["replay"], "replay"),
    (["count"], "count"),
    (["countss"], "countss"),
    (["Counts"], "Counts"),
    (["counts", ""], ""),
    (["counts", "3"], None),
    (["write", "write"], None),
    (["help", "help"], None),
    (["--hel"], "--hel"),
    (["-Q"], "-Q"),
    (["--version", "now"], "--version"),
    (["slot"], None),
    (["slot", ""], ""),
    (["slot", "-1"], "-1"),
    (["slot", "+1"], "+1"),
    (["slot", "01"], "01"),
    (["slot", "00"], "00"),
    (["slot", "1 "], "1 "),
    (["slot", "1000000000"], "1000000000"),
    (["slot", "0" * 32], "0" * 32),
    (["slot", "x"], "x"),
    (["slot", "1", "1"], None),
    (["slot", "-q", "1"], None),
    (["-q", "-q"], None),
    (["-q", "counts", "-q"], None),
    (["-q", "slot", "1", "-q"], None),
    (["slots", "1"], None),
    (["slots", "slots"], None),
    (["slott", "1"], "slott"),
    (["log"], None),
    (["-q", "log"], None),
    (["logs", "a"], "logs"),
    (["3", "slot"], None),
    (["a b", "*"], "a b"),
    (["a" * 64], "a" * 64),
    (["a" * 5000], "a" * 64 + ".."),
]


def said_of_words(odd):
    """What is said on standard error of words that ask for nothing."""
    if odd is None:
        return b"thrumcomb: these words do not go together\n" + USAGE
    return b"thrumcomb: unknown word: " + odd.encode() + b"\n" + USAGE


def said_of(lines):
    """What is said on standard error beside what is printed."""
    if not lines.startswith(b"refused "):
        return b""
    _, number, place = lines.split()
    return ("thrumcomb: " + REASONS[int(number)].replace("P", place.decode()) + "\n").encode()


def contents(path):
    with open(path, "rb") as file:
        return file.read()


def run(words, text, command=(RUNNER, PROGRAM)):
    return subprocess.run([*command, *words], input=text, capture_output=True,
                          timeout=120)


def printed(words, text):
    done = run(words, text)
    return done.stdout, done.stderr


def expected(words, text):
    """What the program is to print for its words, by replay.py."""
    if not words:
        return replay.report(text)
    if words[0] == "counts":
        return replay.counts_report(text)
    if words[0] == "slot":
        return replay.slot_report(text, int(words[1]))
    if words[0] == "slots":
        return replay.slots_report(text)
    return replay.write_report(text)


class OfTheProgram(unittest.TestCase):

    @classmethod
    def setUpClass(cls):
        kit.program()

    def assertPrints(self, words, text, lines):
        self.assertEqual(printed(words, text), (lines, said_of(lines)), (words, text[:2000]))

    def assertAllPrint(self, asked):
        """Each (words, text) is answered as replay.py does."""
        with ThreadPoolExecutor(2) as pool:
            found = pool.map(lambda one: printed(*one), asked)
            for (words, text), answer in zip(asked, found):
                lines = expected(words, text)
                self.assertEqual(answer, (lines, said_of(lines)), (words, text[:2000]))


class Printed(OfTheProgram):

    def test_the_printed_example(self):
        self.assertPrints([], PRINTED_CASE, PRINTED_LINES)

    def test_counts_of_the_printed_example(self):
        self.assertPrints(["counts"], PRINTED_CASE,
                          b"count 1 1\ncount 2 0\ncount 3 2\n")

    def test_slots_of_the_printed_example(self):
        for slot, line in [("0", b"running 0 2 3\n"), ("1", b"running 1 1 3\n"),
                           ("4", b"running 4 3\n"), ("9", b"running 9\n")]:
            self.assertPrints(["slot", slot], PRINTED_CASE, line)
        plain = PRINTED_CASE.replace(b"edf-cf", b"edf")
        self.assertPrints(["slot", "0"], plain, b"running 0 1 2\n")

    def test_a_slot_beyond_the_end(self):
        for slot in ["10", "11", "100000", "999999999"]:
            self.assertPrints(["slot", slot], PRINTED_CASE, b"refused 15 0\n")

    def test_the_text_written_back(self):
        self.assertPrints(["write"], PRINTED_CASE, PRINTED_CASE)
        without = PRINTED_CASE.replace(b"policy\tedf-cf\n", b"")
        self.assertPrints(["write"], without,
                          PRINTED_CASE.replace(b"edf-cf", b"edf"))

    def test_a_refused_case_is_refused_in_every_way(self):
        for text, line in [(PRINTED_CASE.replace(b"procs\t2", b"procs\t33"), b"refused 4 0\n"),
                           (WITHOUT_TASK_3, b"refused 16 3\n")]:
            for words in [[], ["counts"], ["slot", "0"], ["slot", "99"], ["slots"], ["write"]]:
                self.assertPrints(words, text, line)

    def test_a_task_without_a_release(self):
        """The lowest such task, after all that a release can break."""
        head, rest = PRINTED_CASE.split(b"release", 1)[0], WITHOUT_TASK_3
        for text, line in [
                (head, b"refused 16 1\n"),
                (head.replace(b"end\t10", b"end\t0"), b"refused 16 1\n"),
                (head + b"release\t0\t1\n", b"refused 16 2\n"),
                (head + b"release\t0\t2\nrelease\t0\t3\n", b"refused 16 1\n"),
                (head + b"release\t0\t1\nrelease\t0\t3\n", b"refused 16 2\n"),
                (rest, b"refused 16 3\n"),
                (rest + b"release\t9\t4\n", b"refused 8 3\n"),
                (rest + b"release\t10\t3\n", b"refused 11 3\n"),
                (rest + b"release\t0\t2\n", b"refused 9 3\n"),
                (rest + b"release\t9\t2\n", b"refused 10 3\n"),
                (rest + b"release\t0\t3", b"refused 2 9\n")]:
            self.assertPrints([], text, line)

    def test_every_example(self):
        found = sorted(glob.glob(os.path.join(EXAMPLES, "*.case")))
        self.assertGreater(len(found), 14)
        for name in found:
            text, lines = contents(name), contents(name[:-len(".case")] + ".out")
            self.assertPrints([], text, lines)
            self.assertEqual(lines, replay.report(text), name)

    def test_every_example_of_a_log(self):
        """CASE.log or CASE.WORDS.log, with what is printed of it beside it."""
        found = sorted(glob.glob(os.path.join(EXAMPLES, "*.log")))
        self.assertGreater(len(found), 2)
        for name in found:
            of = os.path.join(EXAMPLES, os.path.basename(name).split(".")[0] + ".case")
            text, log, lines = (contents(path) for path in (of, name, name + ".out"))
            self.assertEqual(printed(["-q", "log", name], text), (lines, b""), name)
            self.assertEqual(lines, replay.log_report(text, log), name)


class Words(OfTheProgram):

    def test_help(self):
        for word in ["help", "-h", "--help"]:
            self.assertPrints([word], b"", USAGE)

    def test_words_that_ask_for_nothing(self):
        with ThreadPoolExecutor(2) as pool:
            found = pool.map(lambda one: printed(one[0], PRINTED_CASE), WRONG_WORDS)
            for (words, odd), answer in zip(WRONG_WORDS, found):
                self.assertEqual(answer, (b"", said_of_words(odd)), words)

    def test_quiet(self):
        refused = PRINTED_CASE.replace(b"procs\t2", b"procs\t33")
        for words in [[], ["counts"], ["slot", "0"], ["write"]]:
            for asked in [["-q", *words], [*words, "-q"]]:
                self.assertEqual(printed(asked, refused), (b"refused 4 0\n", b""), asked)
                self.assertEqual(printed(asked, WITHOUT_TASK_3), (b"refused 16 3\n", b""), asked)
                self.assertEqual(printed(asked, PRINTED_CASE),
                                 (expected(words, PRINTED_CASE), b""), asked)


class Reasons(OfTheProgram):

    def test_every_refusal_that_a_text_can_meet(self):
        head = b"procs\t1\ntask\t5\t1\t5\n"
        many = b"".join(b"release\t%d\t1\n" % (5 * i) for i in range(2001))
        met = {
            1: ([], b"x" * 60_001),
            2: ([], head + b"end\t10\nrelease\t01\t1\n"),
            3: ([], head),
            4: ([], b"procs\t0\ntask\t5\t1\t5\nend\t3\n"),
            5: ([], b"procs\t1\n" + b"task\t5\t1\t5\n" * 33 + b"end\t3\n"),
            6: ([], head + b"task\t5\t6\t5\nend\t3\n"),
            7: ([], head + b"end\t100001\n"),
            8: ([], head + b"end\t10\nrelease\t0\t1\nrelease\t5\t2\n"),
            9: ([], head + b"end\t10\nrelease\t5\t1\nrelease\t0\t1\n"),
            10: ([], head + b"end\t10\nrelease\t0\t1\nrelease\t4\t1\n"),
            11: ([], head + b"end\t5\nrelease\t0\t1\nrelease\t5\t1\n"),
            12: ([], head + b"end\t100000\n" + many),
            15: (["slot", "5"], head + b"end\t5\nrelease\t0\t1\n"),
            16: ([], head + b"task\t5\t1\t5\nend\t5\nrelease\t0\t1\n"),
        }
        self.assertEqual(set(met), set(REASONS))
        for number, (words, text) in met.items():
            lines, said = printed(words, text)
            self.assertEqual(lines.split()[:2], [b"refused", b"%d" % number])
            self.assertEqual(said, said_of(lines), number)
            place = lines.split()[2]
            self.assertEqual(place + b":" in said, b"P" in REASONS[number].encode(), number)

    def test_the_words_for_a_task_without_a_release(self):
        self.assertEqual(printed([], WITHOUT_TASK_3),
                         (b"refused 16 3\n", b"thrumcomb: task 3: is never released, so no verdict covers it\n"))
        all_but_32 = cases.flat((0, task) for task in range(1, 32))
        self.assertEqual(printed([], cases.text_of(cases.Case(1, 0, [5, 1, 5] * 32, 1, all_but_32))),
                         (b"refused 16 32\n", b"thrumcomb: task 32: is never released, so no verdict covers it\n"))


class InAndOut(OfTheProgram):

    def start(self, **ends):
        return subprocess.Popen([RUNNER, PROGRAM], stdin=subprocess.PIPE,
                                stderr=subprocess.PIPE, **ends)

    def test_a_byte_at_a_time(self):
        with self.start(stdout=subprocess.PIPE) as running:
            for at in range(len(PRINTED_CASE)):
                running.stdin.write(PRINTED_CASE[at:at + 1])
                running.stdin.flush()
                time.sleep(0.002)
            lines, _ = running.communicate(timeout=60)
        self.assertEqual(lines, PRINTED_LINES)

    def test_nothing_in(self):
        self.assertPrints([], b"", b"refused 3 1\n")
        done = subprocess.run([RUNNER, PROGRAM], stdin=subprocess.DEVNULL,
                              capture_output=True, timeout=60)
        self.assertEqual(done.stdout, b"refused 3 1\n")

    def test_too_much_in(self):
        whole = cases.text_of(cases.longest_text_case())
        for text in [b"x" * 60_001, b"\n" * 65_536, whole + b"\n" * 60_001,
                     b"\0" * 1_000_000]:
            for words in [[], ["counts"], ["slot", "0"], ["slots"], ["write"]]:
                self.assertPrints(words, text, b"refused 1 0\n")

    def test_just_the_most_in(self):
        self.assertPrints([], b"x" * 60_000, b"refused 2 1\n")
        self.assertPrints([], b"x" * 59_999 + b"\n", b"refused 2 1\n")

    def test_nothing_is_printed_before_the_input_ends(self):
        # A refusal that only the last line brings is the only line.
        with self.start(stdout=subprocess.PIPE) as running:
            running.stdin.write(PRINTED_CASE)
            running.stdin.flush()
            time.sleep(0.5)
            lines, _ = running.communicate(b"release\t0\t3\n", timeout=60)
        self.assertEqual(lines, b"refused 9 4\n")

    def test_an_output_that_nobody_reads(self):
        ours, theirs = os.pipe()
        os.close(ours)
        running = self.start(stdout=theirs)
        os.close(theirs)
        running.communicate(PRINTED_CASE, timeout=60)
        self.assertIsNotNone(running.returncode)

    def test_a_closed_output(self):
        done = run([], PRINTED_CASE,
                   ("sh", "-c", 'exec "$0" "$@" >&-', RUNNER, PROGRAM))
        self.assertEqual((done.stdout, done.stderr),
                         (b"", b"thrumcomb: write: Bad file descriptor\n"))

    def test_an_input_that_cannot_be_read(self):
        for end, why in [("</", b"Is a directory"), ("<&-", b"Bad file descriptor"),
                         ("0>/dev/null", b"Bad file descriptor")]:
            done = subprocess.run(["sh", "-c", 'exec "$0" "$@" ' + end, RUNNER, PROGRAM],
                                  capture_output=True, timeout=60)
            self.assertEqual((done.stdout, done.stderr),
                             (b"", b"thrumcomb: read: " + why + b"\n"), end)

    def test_how_it_ended_is_its_exit_status(self):
        for words, text, outcome in [
                ([], PRINTED_CASE, 0), (["help"], b"", 0), ([], b"", 2),
                (["slot", "10"], PRINTED_CASE, 2), ([], WITHOUT_TASK_3, 2),
                (["nothing"], PRINTED_CASE, 64)]:
            self.assertEqual(run(words, text).returncode, outcome, words)
        failed = ("sh", "-c", 'exec "$0" "$@" >/dev/full 2>&1', RUNNER, PROGRAM)
        for words in [[], ["help"]]:
            self.assertEqual(run(words, PRINTED_CASE, failed).returncode, 1, words)

    def test_the_longest_output(self):
        case = cases.longest_text_case()
        text = cases.text_of(case)
        self.assertAllPrint([([], text), (["write"], text)])


class AgainstTheReplay(OfTheProgram):

    def test_texts(self):
        found = [([], text.data) for text in cases.texts("program", 800)]
        self.assertAllPrint(found)

    def test_texts_with_words(self):
        ways = [["counts"], ["write"], ["slot", "0"], ["slot", "3"], ["slots"]]
        found = [(ways[at % 5], text.data)
                 for at, text in enumerate(cases.texts("program words", 200))]
        self.assertAllPrint(found)

    def test_legal_cases(self):
        found = [([], cases.text_of(case))
                 for case in cases.legal_cases("program", 200)]
        self.assertAllPrint(found)

    def test_legal_cases_with_words(self):
        found = []
        for at, case in enumerate(cases.legal_cases("program words", 160)):
            slot = str(at % (case.end + 2))
            words = [["counts"], ["write"], ["slot", slot], ["slots"]][at % 4]
            found.append((words, cases.text_of(case, with_policy=at % 3 != 0)))
        self.assertAllPrint(found)

    def test_large_cases(self):
        found = [(words, cases.text_of(case))
                 for case in cases.large_cases("program", 2)
                 for words in ([], ["slot", str(case.end // 2)], ["slots"])]
        self.assertAllPrint(found)


class Script(OfTheProgram):
    """`./thrumcomb`, which gives an exit status."""

    def assertEnds(self, words, text, status, lines, errors=None):
        done = run(words, text, (SCRIPT,))
        if errors is None:
            errors = said_of(lines)
        self.assertEqual((done.returncode, done.stdout, done.stderr),
                         (status, lines, errors), words)

    def assertFails(self, ends, why, words=""):
        """With these ends the script prints nothing, says why, and gives 1."""
        with tempfile.TemporaryDirectory() as folder:
            case = os.path.join(folder, "case")
            with open(case, "wb") as file:
                file.write(PRINTED_CASE)
            done = subprocess.run(["sh", "-c", f'"$0" {words} {ends}', SCRIPT, case],
                                  stdin=subprocess.DEVNULL, capture_output=True, timeout=60)
        self.assertEqual((done.returncode, done.stdout, done.stderr),
                         (1, b"", b"thrumcomb: " + why + b"\n"), (ends, words))

    def test_an_accepted_case(self):
        self.assertEnds([], PRINTED_CASE, 0, PRINTED_LINES)
        self.assertEnds(["counts"], PRINTED_CASE, 0,
                        b"count 1 1\ncount 2 0\ncount 3 2\n")
        self.assertEnds(["slot", "9"], PRINTED_CASE, 0, b"running 9\n")
        self.assertEnds(["write"], PRINTED_CASE, 0, PRINTED_CASE)

    def test_a_refused_case(self):
        self.assertEnds([], b"", 2, b"refused 3 1\n")
        self.assertEnds(["slot", "10"], PRINTED_CASE, 2, b"refused 15 0\n")
        self.assertEnds(["write"], b"procs\n", 2, b"refused 2 1\n")
        for words in [[], ["counts"], ["slot", "0"], ["slot", "10"], ["write"]]:
            self.assertEnds(words, WITHOUT_TASK_3, 2, b"refused 16 3\n")
            self.assertEnds(["-q", *words], WITHOUT_TASK_3, 2, b"refused 16 3\n", b"")
        self.assertEnds(["-q"], b"", 2, b"refused 3 1\n", b"")
        self.assertEnds(["slot", "10", "-q"], PRINTED_CASE, 2, b"refused 15 0\n", b"")

    def test_words_that_ask_for_nothing(self):
        for words, odd in [(["nothing"], "nothing"), (["slot"], None), (["slot", "01"], "01"),
                           ([""], ""), (["a b", "*"], "a b"), (["--version", "now"], "--version")]:
            self.assertEnds(words, PRINTED_CASE, 64, b"", said_of_words(odd))

    def test_help(self):
        for word in ["help", "-h", "--help"]:
            self.assertEnds([word], b"", 0, USAGE)

    def test_from_another_folder(self):
        done = subprocess.run([SCRIPT, "slot", "0"], input=PRINTED_CASE,
                              capture_output=True, cwd="/", timeout=60)
        self.assertEqual((done.returncode, done.stdout), (0, b"running 0 2 3\n"))

    def test_an_input_that_cannot_be_read(self):
        self.assertFails("</", b"read: Is a directory")
        self.assertFails("<&-", b"read: Bad file descriptor")
        self.assertFails("<&-", b"read: Bad file descriptor", "slot 0 -q")

    def test_an_input_that_fails_in_the_middle(self):
        # What is written into a terminal is read at its other end, and then a
        # read fails, since nobody holds the terminal any more. What came
        # before is an accepted case, of which nothing may be printed.
        ours, terminal = pty.openpty()
        tty.setraw(terminal)
        os.write(terminal, PRINTED_CASE)
        os.close(terminal)
        done = subprocess.run([SCRIPT], stdin=ours, capture_output=True, timeout=60)
        os.close(ours)
        self.assertEqual((done.returncode, done.stdout, done.stderr),
                         (1, b"", b"thrumcomb: read: Input/output error\n"))

    def test_an_output_that_cannot_be_written(self):
        for words in ["", "counts", "write -q", "help"]:
            self.assertFails('<"$1" >&-', b"write: Bad file descriptor", words)
            self.assertFails('<"$1" >/dev/full', b"write: No space left on device", words)

    def test_a_reader_that_goes_away(self):
        ours, theirs = os.pipe()
        os.close(ours)
        done = subprocess.run([SCRIPT], input=PRINTED_CASE, stdout=theirs,
                              stderr=subprocess.PIPE, timeout=60)
        os.close(theirs)
        self.assertEqual((done.returncode, done.stderr),
                         (1, b"thrumcomb: write: Broken pipe\n"))

    def test_a_closed_standard_error(self):
        done = subprocess.run(["sh", "-c", '"$0" 2>&-', SCRIPT], input=b"procs\n",
                              capture_output=True, timeout=60)
        self.assertEqual((done.returncode, done.stdout), (2, b"refused 2 1\n"))

    def test_the_version(self):
        done = run(["--version"], b"", (SCRIPT,))
        with open(os.path.join(ROOT, "VERSION"), encoding="ascii") as file:
            version = file.read().strip()
        self.assertEqual((done.returncode, done.stderr), (0, b""))
        self.assertEqual(done.stdout.decode(),
                         f"thrumcomb {version}\nsources sha256 {digest_of(ROOT)}\n")


def digest_of(folder):
    """What bin/digest is to print, made from its comment."""
    found = [os.path.join(folder, "crates.txt")]
    for kind in ("src", "specs", "proofs"):
        for top in glob.glob(os.path.join(folder, "crates", "*", kind)):
            found += [os.path.join(at, name) for at, _, names in os.walk(top) for name in names]
    lines = []
    for path in sorted(found, key=lambda path: os.path.relpath(path, folder).encode()):
        with open(path, "rb") as file:
            name = os.path.relpath(path, folder)
            lines.append(f"{hashlib.sha256(file.read()).hexdigest()}  {name}\n")
    return hashlib.sha256("".join(lines).encode()).hexdigest()


class Digest(unittest.TestCase):
    """bin/digest tells any two states of the sources apart, and looks at nothing else."""

    def setUp(self):
        self.folder = tempfile.mkdtemp()
        self.addCleanup(shutil.rmtree, self.folder)
        for name in ["crates.txt", "crates/a/src/lib.rt", "crates/a/specs/Lib.antt",
                     "crates/a/proofs/f/Proof.antt", "crates/b/src/main.rt",
                     "README.md", "crates/a/must-fail/x.edit"]:
            self.write(name, b"of " + name.encode())

    def write(self, name, data):
        path = os.path.join(self.folder, name)
        os.makedirs(os.path.dirname(path), exist_ok=True)
        with open(path, "wb") as file:
            file.write(data)

    def digest(self):
        done = subprocess.run([DIGEST, self.folder], capture_output=True, timeout=60, check=True)
        return done.stdout.decode().strip()

    def test_it_is_what_its_comment_says(self):
        self.assertEqual(self.digest(), digest_of(self.folder))
        self.assertRegex(self.digest(), "^[0-9a-f]{64}$")

    def test_a_changed_source_changes_it(self):
        seen = {self.digest()}
        for name in ["crates.txt", "crates/a/src/lib.rt", "crates/a/specs/Lib.antt",
                     "crates/a/proofs/f/Proof.antt", "crates/b/src/main.rt",
                     "crates/b/specs/Lib.antt"]:
            self.write(name, b"changed")
            seen.add(self.digest())
        os.rename(os.path.join(self.folder, "crates/a/src/lib.rt"),
                  os.path.join(self.folder, "crates/a/src/other.rt"))
        seen.add(self.digest())
        os.remove(os.path.join(self.folder, "crates/a/src/other.rt"))
        seen.add(self.digest())
        self.assertEqual(len(seen), 9)

    def test_what_is_not_proved_does_not(self):
        first = self.digest()
        for name in ["README.md", "crates/a/must-fail/x.edit", "crates/b/out/b"]:
            self.write(name, b"changed")
            self.assertEqual(self.digest(), first, name)


class Protocol(unittest.TestCase):
    """The script over a program that is put in the place of the built one."""

    def setUp(self):
        self.folder = tempfile.mkdtemp()
        self.addCleanup(shutil.rmtree, self.folder)
        for name in ["thrumcomb", "bin/digest", "VERSION", "crates.txt"]:
            path = os.path.join(self.folder, name)
            os.makedirs(os.path.dirname(path), exist_ok=True)
            shutil.copy(os.path.join(ROOT, name), path)
        self.script = os.path.join(self.folder, "thrumcomb")
        self.put("crates/program/out/program", "")

    def put(self, name, text):
        path = os.path.join(self.folder, name)
        os.makedirs(os.path.dirname(path), exist_ok=True)
        with open(path, "w", encoding="ascii") as file:
            file.write("#!/bin/sh\n" + text)
        os.chmod(path, 0o755)

    def run_over(self, text):
        self.put("bin/exec", text)
        done = subprocess.run([self.script], input=b"", capture_output=True, timeout=60)
        return done.returncode, done.stdout, done.stderr

    def test_the_program_s_status_is_given(self):
        for outcome in [0, 1, 2, 64]:
            self.assertEqual(self.run_over(f"echo line; exit {outcome}"),
                             (outcome, b"line\n", b""))

    def test_an_odd_status_is_a_failure(self):
        said = b"thrumcomb: the program did not come to its end\n"
        for text in ["echo line; exit 7", "echo line; exit 3", "echo line; exit 134", "echo line; exit 255",
                     "echo line; kill -9 $$", "echo line; kill -ABRT $$"]:
            status, lines, errors = self.run_over(text)
            self.assertEqual((status, lines), (1, b"line\n"), text)
            self.assertTrue(errors.endswith(said), text)

    def test_what_is_printed_comes_at_once(self):
        # The program waits for its input to end after its first line; the
        # script could not hand that line on if it held what is printed.
        self.put("bin/exec", "echo first; cat >/dev/null; echo last")
        with subprocess.Popen([self.script], stdin=subprocess.PIPE,
                              stdout=subprocess.PIPE) as running:
            self.assertEqual(running.stdout.readline(), b"first\n")
            self.assertIsNone(running.poll())
            running.stdin.close()
            self.assertEqual(running.stdout.read(), b"last\n")
            self.assertEqual(running.wait(60), 0)

    def version(self, rt):
        self.put("kit/rt", rt)
        path = os.path.join(self.folder, "kit") + ":" + os.environ["PATH"]
        done = subprocess.run([self.script, "--version"], stdin=subprocess.DEVNULL,
                              capture_output=True, timeout=60, env={**os.environ, "PATH": path})
        return done.returncode, done.stdout, done.stderr

    def test_the_version_of_sources_that_changed_since(self):
        status, lines, errors = self.version("echo 'logic=proved functions=9' >&2; echo usage")
        self.assertEqual((status, lines.split()[0]), (0, b"thrumcomb"))
        self.assertIn(b"had changed", errors)

    def test_the_version_of_sources_that_did_not_change(self):
        status, lines, errors = self.version("echo 'rt: nothing has changed since the last proved build, by "
                                             "out/program.stamp, so nothing is checked now' >&2; echo usage")
        self.assertEqual((status, lines.split()[0], errors), (0, b"thrumcomb", b""))

    def test_no_version_where_the_sources_are_not_proved(self):
        status, lines, errors = self.version("echo 'logic=not-proved' >&2; exit 1")
        self.assertEqual((status, lines), (1, b""))
        self.assertIn(b"not proved", errors)

    def test_no_version_of_sources_that_change_meanwhile(self):
        status, lines, errors = self.version("echo '# more' >> ../../crates.txt")
        self.assertEqual((status, lines), (1, b""))
        self.assertIn(b"changed while", errors)


if __name__ == "__main__":
    unittest.main()
