"""The entries of document 01, "Worked by hand", made through the archive and by the program.

Each entry holds the numbers that document 01 gives, and where request P1
changed them those of the request: the whole answer of the call and every lent
room, which is longer than the answer needs and starts as nines, so that the
numbers and bytes past it show too; and what the program prints for the same
case.  replay.py gives the same answers.
"""

import glob
import os
import subprocess
import unittest
from collections import namedtuple

import cases
import driven
import kit
import replay
from kit import PROGRAM, ROOT
from replay import EDF, EDF_CF, accepted, refused

EXAMPLES = os.path.join(ROOT, "examples")

SET_A = [10, 1, 4, 10, 1, 1, 10, 5, 5]
SET_B = [15, 5, 9, 15, 5, 9, 15, 6, 10]
ALL_AT_0 = [0, 1, 0, 2, 0, 3]

TEXT_A = (b"procs\t2\npolicy\tedf-cf\ntask\t10\t1\t4\ntask\t10\t1\t1\ntask\t10\t5\t5\nend\t10\n"
          b"release\t0\t1\nrelease\t0\t2\nrelease\t0\t3\n")

# A call and its answer; the words and the text that the program gets, and what it prints; the name of the case in examples/, or None.
Entry = namedtuple("Entry", "call answer words text printed example")


def counted(procs, table, *free):
    """The free counts of a table, the program's printed one a line: it reads a case, in which each task has to appear."""
    room = [9] * (len(free) + 1)
    lines = "".join(f"count {task} {count}\n" for task, count in enumerate(free, start=1))
    each_at_0 = [number for task in range(1, len(free) + 1) for number in (0, task)]
    return Entry(("counts", (procs, table, room)), accepted([len(free)], [*free, 9]),
                 ["counts"], cases.text_of(cases.Case(procs, EDF, table, 1, each_at_0)), lines.encode(), None)


def ran(procs, policy, table, end, trace, slot, set_number, line):
    case = cases.Case(procs, policy, table, end, trace)
    return Entry(("running_set", (*case, slot)), accepted([set_number]),
                 ["slot", str(slot)], cases.text_of(case), line, None)


def judged(procs, policy, table, end, trace, totals, records, example):
    case = cases.Case(procs, policy, table, end, trace)
    return replayed(case, accepted(totals, replay.put_at_front(records, [9] * 10)), example)


def not_taken(procs, policy, table, end, trace, number, place, example):
    case = cases.Case(procs, policy, table, end, trace)
    return replayed(case, refused((number, place), [9] * 10), example)


def replayed(case, answer, example):
    """The replay of a case; what is printed of it stands in examples/, where the case does."""
    return Entry(("replay", (*case, [9] * 10)), answer, [], cases.text_of(case), printed_in(example), example)


def content(name):
    with open(os.path.join(EXAMPLES, name), "rb") as file:
        return file.read()


def printed_in(example):
    return None if example is None else content(example + ".out")


# ---------------------------------------------------------------------------
# The entries, in the order of document 01; the requests' own stand beside those that they changed


def availability_through_counts():
    """Availability for T 10, D 4 at l = 1, 4, 9, 10, 11, 14, 20: 1, 4, 4, 4, 5, 8, 8.

    Beside 31 such tasks on 30 processors, the free count of a task with D = l and a longer period is l less the availability of one
    of them: the sum is 31 availabilities and l, and l is below 31.
    """
    for l, available in [(1, 1), (4, 4), (9, 4), (10, 4), (11, 5), (14, 8), (20, 8)]:
        yield counted(30, [10, 1, 4] * 31 + [100, 1, l], *[0] * 31, l - available)


def set_a():
    """Its free counts 1, 0, 2; the sets of slot 0, 3 and 6; under EDF task 3 missed; and the printed case."""
    yield counted(2, SET_A, 1, 0, 2)
    yield ran(2, EDF, SET_A, 10, ALL_AT_0, 0, 3, b"running 0 1 2\n")
    yield ran(2, EDF_CF, SET_A, 10, ALL_AT_0, 0, 6, b"running 0 2 3\n")
    yield judged(2, EDF, SET_A, 10, ALL_AT_0, [2, 1, 0], [1, 1, 0, 1, 1, 0, 2, 0, 0], "set-a-edf")
    yield judged(2, EDF_CF, SET_A, 10, ALL_AT_0, [3, 0, 0], [1, 2, 1, 1, 1, 0, 1, 5, 0], "set-a-edf-cf")


def set_b():
    """Its free counts 0, 0, 1; with end 10 both policies miss task 3; with end 9 it is open."""
    yield counted(2, SET_B, 0, 0, 1)
    for policy, word in (EDF, "edf"), (EDF_CF, "edf-cf"):
        yield judged(2, policy, SET_B, 10, ALL_AT_0, [2, 1, 0], [1, 5, 0, 1, 5, 0, 2, 0, 0], "set-b-end-10-" + word)
        yield judged(2, policy, SET_B, 9, ALL_AT_0, [2, 0, 1], [1, 5, 0, 1, 5, 0, 3, 0, 0], "set-b-end-9-" + word)


def one_task():
    """Free count 3; it is demoted at 0 and finishes at 1. Never demoted in document 01; request P3 changed the step."""
    yield counted(1, [5, 1, 5], 3)
    yield judged(1, EDF_CF, [5, 1, 5], 5, [0, 1], [1, 0, 0], [1, 1, 1], "one-task")


def larger_count():
    """Set A with deadline 5 for task 1 (request P3): its free count 2 is larger than its execution, and demoted it lets task 3 meet."""
    table = [10, 1, 5, 10, 1, 1, 10, 5, 5]
    yield counted(2, table, 2, 0, 2)
    yield judged(2, EDF, table, 10, ALL_AT_0, [2, 1, 0], [1, 1, 0, 1, 1, 0, 2, 0, 0], None)
    yield judged(2, EDF_CF, table, 10, ALL_AT_0, [3, 0, 0], [1, 2, 1, 1, 1, 0, 1, 5, 0], "larger-count")


def two_tasks():
    """Finishes 2 and 4: the deadline equal to the end is judged."""
    table = [4, 2, 4, 4, 2, 4]
    yield judged(1, EDF, table, 4, [0, 1, 0, 2], [2, 0, 0], [1, 2, 0, 1, 4, 0], "two-tasks-edf")
    yield judged(1, EDF_CF, table, 4, [0, 1, 0, 2], [2, 0, 0], [1, 2, 0, 1, 4, 0], "two-tasks")


def no_release():
    """End 0, no release: 16 at place 1. Totals 0, 0, 0 in document 01; request P1 made it a refusal."""
    yield not_taken(1, EDF, [5, 1, 5], 0, [], 16, 1, "refused-no-release-edf")
    yield not_taken(1, EDF_CF, [5, 1, 5], 0, [], 16, 1, "refused-no-release")


def task_without_release():
    """Set A without the release of task 3, of which a clean result would say nothing (request P1): 16 at place 3."""
    yield not_taken(2, EDF_CF, SET_A, 10, [0, 1, 0, 2], 16, 3, "refused-task-without-release")


def separation():
    """T = 10: releases at 0 and 10 stand; at 0 and 9 is 10 at place 2. The same release twice is 9."""
    table = [10, 1, 10]
    yield judged(1, EDF, table, 20, [0, 1, 10, 1], [2, 0, 0], [1, 1, 0, 1, 11, 0], "releases-0-and-10")
    yield not_taken(1, EDF, table, 20, [0, 1, 9, 1], 10, 2, "refused-releases-0-and-9")
    yield not_taken(1, EDF, table, 20, [0, 1, 0, 1], 9, 2, "refused-release-twice")
    shorter = [10, 1, 4]
    yield judged(1, EDF, shorter, 20, [0, 1, 10, 1], [2, 0, 0], [1, 1, 0, 1, 11, 0], None)
    yield not_taken(1, EDF, shorter, 20, [0, 1, 9, 1], 10, 2, None)
    yield not_taken(1, EDF, shorter, 20, [0, 1, 0, 1], 9, 2, None)


def the_case_text():
    """The case of set A, read and written."""
    tasks, releases = list(range(96)), list(range(4_000))
    yield Entry(("read_case", (TEXT_A, tasks, releases)),
                accepted([2, 1, 10, 3, 3], SET_A + tasks[9:], ALL_AT_0 + releases[6:]), [], TEXT_A, content("set-a-edf-cf.out"), None)
    yield Entry(("write_case", (2, EDF_CF, SET_A, 10, ALL_AT_0, b"9" * 105)),
                accepted([101], TEXT_A + b"9999"), ["write"], TEXT_A, TEXT_A, None)


def returns():
    """The same text with a return before each newline (request P4): read it is the same case, and written it has none."""
    tasks, releases = list(range(96)), list(range(4_000))
    text = TEXT_A.replace(b"\n", b"\r\n")
    yield Entry(("read_case", (text, tasks, releases)),
                accepted([2, 1, 10, 3, 3], SET_A + tasks[9:], ALL_AT_0 + releases[6:]), [], text, content("set-a-edf-cf.out"),
                "set-a-returns")
    yield Entry(("read_case", (TEXT_A.replace(b"\n", b"\r\r\n"), tasks, releases)), refused((2, 1), tasks, releases),
                ["write"], text, TEXT_A, None)


LINES = [availability_through_counts, set_a, set_b, one_task, larger_count, two_tasks, no_release, task_without_release, separation,
         the_case_text, returns]


class WorkedByHand(unittest.TestCase):

    def test_worked_through_the_archive(self):
        for line in LINES:
            with self.subTest(line=line.__name__):
                entries = list(line())
                driven.hold_to(self, [entry.call for entry in entries], [entry.answer for entry in entries])

    def test_worked_by_the_replay(self):
        for line in LINES:
            for entry in line():
                name, args = entry.call
                with self.subTest(line=line.__name__, call=name):
                    self.assertEqual(getattr(replay, name)(*args), entry.answer)

    def test_worked_by_the_program(self):
        kit.program()
        for line in LINES:
            for entry in line():
                with self.subTest(line=line.__name__, words=entry.words):
                    if entry.printed is not None:
                        done = subprocess.run([driven.EXEC, PROGRAM, *entry.words], input=entry.text, stdout=subprocess.PIPE,
                                              stderr=subprocess.DEVNULL, timeout=60)
                        self.assertEqual(done.stdout, entry.printed, entry.text)

    def test_the_examples_are_the_worked_cases(self):
        worked = {entry.example: entry.text for line in LINES for entry in line() if entry.example}
        there = {os.path.basename(path)[:-len(".case")] for path in glob.glob(os.path.join(EXAMPLES, "*.case"))}
        self.assertEqual(set(worked), there)
        for name, text in worked.items():
            self.assertEqual(content(name + ".case"), text, name)


if __name__ == "__main__":
    unittest.main()
