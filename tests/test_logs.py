"""The check of a slot log: replay.py's by hand and against wrong ones; then the built call and the program against replay.py's."""

import collections
import contextlib
import errno
import fcntl
import os
import random
import re
import subprocess
import sys
import tempfile
import termios
import time
import unittest
from concurrent.futures import ThreadPoolExecutor

import cases
import driven
import logs
import replay
import test_program
import test_replay
from test_program import PROGRAM, RUNNER, SCRIPT

# Logs that are held against the archive, and those against the program.
COUNT = 6_000
ASKED = 240

# What a log of 100 MB may bring the program's memory to, in bytes.
MOST_MEMORY = 16 * 2**20

# Each refusal that the check of a log can meet.
NUMBERS = {0, 17, 18, 19, *cases.CASE_BREAKERS}

# What is said of a refused log, P being its place.
REASONS = {
    17: "log line P: badly formed, tasks that do not rise, or a wrong time",
    18: "log line P: its slot breaks the rule",
    19: "log: its number of lines is not the end",
}

# What is said of a slot, with N for each number.
SLOT_REASONS = {
    "slot N: names a number that is no task",
    "slot N: task N runs without a job",
    "slot N: N ran of N that should",
    "slot N: task N (normal, deadline N) waits, task N (normal, deadline N) runs",
    "slot N: task N (normal, deadline N) waits, task N (demoted, deadline N) runs",
    "slot N: task N (demoted, deadline N) waits, task N (demoted, deadline N) runs",
}


def place_of(answer):
    return answer.values[0] if answer.number != 0 else 0


def checked(log):
    """The number and place that replay.py gives a log of logs.py."""
    answer = replay.check_log(*log.case, log.data)
    return answer.number, place_of(answer)


def words_for(case, log):
    """What is said of a refused log, line by line."""
    answer = replay.check_log(*case, log)
    said = [REASONS[answer.number].replace("P", str(place_of(answer)))]
    return said + [replay.broken_words(*case, log)] if answer.number == 18 else said


def said_of(text, log):
    """What is said on standard error of a case's text and a log."""
    lines = replay.log_report(text, log)
    _, case = replay.read_for_program(text)
    if case is None or lines == b"accepted\n":
        return test_program.said_of(lines)
    return "".join(f"thrumcomb: {words}\n" for words in words_for(case, log)).encode()


def tally_of_slots(found):
    """How many of the logs, all refused as 18, are so for each reason."""
    return collections.Counter(re.sub(r"\d+", "N", replay.broken_words(*log.case, log.data)) for log in found)


# ---------------------------------------------------------------------------
# replay.py's check


class ByHand(unittest.TestCase):

    def test_answers(self):
        for row in logs.BY_HAND:
            with self.subTest(row.what):
                answer = replay.check_log(*row.case, row.log)
                right = replay.refused((row.number, row.place)) if row.number else replay.accepted([])
                self.assertEqual(answer, right)
                if row.number == 18:
                    self.assertEqual(replay.broken_words(*row.case, row.log), row.said)

    def test_there_are_many_of_each(self):
        seen = collections.Counter(row.number for row in logs.BY_HAND)
        self.assertEqual(set(seen), NUMBERS)
        self.assertGreater(min(seen[0], seen[17], seen[18]), 12)

    def test_our_own_log_of_set_a(self):
        self.assertEqual(replay.own_log(*logs.A), logs.as_bytes(logs.LOG_A))

    def test_what_is_printed(self):
        text = cases.text_of(logs.A)
        log = logs.as_bytes(logs.LOG_A)
        self.assertEqual(replay.slots_report(text), log)
        self.assertEqual(replay.slots_report(b""), b"refused 3 1\n")
        self.assertEqual(replay.log_report(text, log), b"accepted\n")
        self.assertEqual(replay.log_report(text, b""), b"refused 19 0\n")
        self.assertEqual(replay.log_report(text, log[:-1]), b"refused 17 10\n")
        self.assertEqual(replay.log_report(text[:-1], log), b"refused 2 9\n")

    def test_what_is_said(self):
        text = cases.text_of(logs.A)
        self.assertEqual(said_of(text, logs.as_bytes("slot 0 1 2|")),
                         b"thrumcomb: log line 1: its slot breaks the rule\n"
                         b"thrumcomb: slot 0: task 3 (normal, deadline 5) waits, task 1 (demoted, deadline 4) runs\n")
        self.assertEqual(said_of(text, b""), b"thrumcomb: log: its number of lines is not the end\n")
        self.assertEqual(said_of(b"", b""), b"thrumcomb: line 1: out of order or missing\n")


class Generated(unittest.TestCase):

    def test_each_aim_is_met(self):
        seen = collections.defaultdict(collections.Counter)
        for log in logs.logs("aims", 2_500):
            found = checked(log)
            seen[log.kind][found[0]] += 1
            if log.number is not None:
                self.assertEqual(found, (log.number, log.place), log)
        self.assertEqual(set(seen), set(logs.ROUND))
        for kind in ("careless", "turned back", "of the other policy"):
            self.assertGreater(min(seen[kind][0], seen[kind][18]), 5, kind)

    def test_our_own_log_is_accepted(self):
        for case in cases.legal_cases("own logs", 600):
            self.assertEqual(replay.check_log(*case, replay.own_log(*case)).number, 0, case)

    def test_words_are_found_for_just_the_slots_that_break_the_rule(self):
        """Of any set of numbers in any slot."""
        rng = random.Random("words")
        seen = collections.Counter()
        for _ in range(600):
            case = logs.dense_case(rng)
            run = replay.LogRun(*case)
            for t in range(case.end):
                n = run.begin_slot(t)
                present = [job.task for job in run.present]
                named = sorted(rng.sample(present, min(case.procs, n)) if rng.random() < 0.8 else logs.any_set(rng))
                right = run.keeps_the_rule(named)
                self.assertEqual(replay.words_of_slot(run, named) is None, right)
                seen[right] += 1
                run.run_first(n, t)
        self.assertGreater(min(seen.values()), 500)

    def test_the_cases_are_dense(self):
        """Ties, waiting and demoted jobs stand in many of the slots."""
        rng = random.Random("dense")
        seen = collections.Counter()
        for _ in range(500):
            for slot in logs.vendor_slots(rng, logs.dense_case(rng)):
                ran, waited = logs.ran_and_waited(slot)
                seen["slots"] += 1
                seen["waiting"] += bool(waited)
                seen["demoted"] += any(demoted for demoted, _ in slot.present.values())
                seen["ties"] += any(slot.present[a] == slot.present[b] for a in ran for b in waited)
        print("slots of dense cases:", dict(seen))
        self.assertGreater(4 * seen["waiting"], seen["slots"])
        self.assertGreater(min(seen["ties"], seen["demoted"]) * 15, seen["slots"])

    def test_same_seed_same_logs(self):
        self.assertEqual(list(logs.logs("again", 200)), list(logs.logs("again", 200)))
        self.assertNotEqual(list(logs.logs("again", 200)), list(logs.logs("other", 200)))


class Promised(unittest.TestCase):
    """The first two parts of demand 3, of EDF-CF logs that break ties at random."""

    def runs(self, seed):
        rng = random.Random(seed)
        for _ in range(1_500):
            case = logs.dense_case(rng)._replace(policy=replay.EDF_CF)
            run = logs.Vendor(rng, case)
            yield case, run, run.play_whole()

    def test_each_job_has_its_free_count_of_free_slots(self):
        tight = 0
        for case, run, records in self.runs("free slots"):
            present = test_replay.presence(case, records)
            for at, number, deadline in test_replay.jobs_of(case):
                if deadline <= case.end:
                    found = sum(n <= case.procs for n in present[at:deadline])
                    self.assertGreaterEqual(found, run.free_counts[number - 1], case)
                    tight += found == run.free_counts[number - 1] > 0
        self.assertGreater(tight, 20)

    def test_a_demoted_job_is_met(self):
        seen = 0
        for case, _, records in self.runs("demoted"):
            for (_, _, deadline), (verdict, _, demotion) in zip(test_replay.jobs_of(case), records):
                if demotion != 0 and deadline <= case.end:
                    self.assertEqual(verdict, replay.MET, case)
                    seen += 1
        self.assertGreater(seen, 200)


# ---------------------------------------------------------------------------
# Wrong checks that look right, each with one rule changed


class FollowsOurReplay(replay.LogRun):
    def work(self, running, t):
        queue = sorted(self.present, key=self.place_in_queue)
        super().work(queue[:len(running)], t)


class EqualDeadlinesRefused(replay.LogRun):
    def comes_before(self, a, b):
        return self.place_in_queue(a) < self.place_in_queue(b)


class FewerAccepted(replay.LogRun):
    def keeps_the_rule(self, named):
        return (len(self.jobs_of(named)) == len(named) <= self.number_that_run() and not self.passed_over(named))


class MoreAccepted(replay.LogRun):
    def keeps_the_rule(self, named):
        return (len(self.jobs_of(named)) == len(named) >= self.number_that_run() and not self.passed_over(named))


class DemotedBeforeNormal(replay.LogRun):
    """Two kinds are not compared."""

    def comes_before(self, a, b):
        return a.demoted == b.demoted and a.deadline < b.deadline


class KindsForgotten(replay.LogRun):
    def comes_before(self, a, b):
        return a.deadline < b.deadline


class DeadlinesForgottenAmongDemoted(replay.LogRun):
    def comes_before(self, a, b):
        return super().comes_before(a, b) and not a.demoted


class FirstRunningOnly(replay.LogRun):
    def passed_over(self, named):
        return [pair for pair in super().passed_over(named) if pair[1].task == named[0]]


class LowestWaitingOnly(replay.LogRun):
    def passed_over(self, named):
        waiting = [job.task for job in self.present if job.task not in named]
        return [pair for pair in super().passed_over(named) if pair[0].task == min(waiting)]


class AbsentOverlooked(replay.LogRun):
    """A named task without a job is left out of the set."""

    def keeps_the_rule(self, named):
        return len(self.jobs_of(named)) == self.number_that_run() and not self.passed_over(named)


class JudgedPastTheEnd(replay.LogRun):
    def is_judged(self, time):
        return True


class NoTaskIsBadForm(replay.LogRun):
    """A number that is no task's is refused as 17."""

    def fault_of_line(self, place, line):
        found = replay.parse_slot(line)
        if found and any(not 1 <= task <= replay.MOST_TASKS for task in found[1]):
            return 17, place
        return super().fault_of_line(place, line)


class RuleBeforeRise(replay.LogRun):
    """18 before 17, where a line names the tasks in another order or at another time."""

    def fault_of_line(self, place, line):
        found = replay.parse_slot(line)
        if found and self.is_judged(place - 1):
            self.begin_slot(place - 1)
            if not self.keeps_the_rule(found[1]):
                return 18, place
            self.work(self.jobs_of(found[1]), place - 1)
            right = replay.rise(found[1]) and found[0] == place - 1
            return None if right else (17, place)
        return super().fault_of_line(place, line)


class NumberOfLinesFirst(replay.LogRun):
    """19 at the first line that is too many, whatever the later ones hold."""

    def fault_of_line(self, place, line):
        return (19, 0) if place > self.end else super().fault_of_line(place, line)


class TooManyAccepted(replay.LogRun):
    def fault_of_log(self, log):
        fault = super().fault_of_log(log)
        return None if fault == (19, 0) and log.count(b"\n") > self.end else fault


class TooFewAccepted(replay.LogRun):
    def fault_of_log(self, log):
        fault = super().fault_of_log(log)
        return None if fault == (19, 0) and log.count(b"\n") < self.end else fault


class AllReturnsSkipped(replay.LogRun):
    def fault_of_log(self, log):
        return super().fault_of_log(log.replace(b"\r", b""))


class TwoReturnsDropped(replay.LogRun):
    def fault_of_line(self, place, line):
        return super().fault_of_line(place, line.removesuffix(b"\r"))


class ReturnDroppedWithoutNewline(replay.LogRun):
    def fault_of_log(self, log):
        return super().fault_of_log(log.removesuffix(b"\r"))


class ReturnsRefused(replay.LogRun):
    def fault_of_log(self, log):
        # A second return in front of each makes a bad line of it.
        return super().fault_of_log(log.replace(b"\r\n", b"\r\r\n"))


class LastNewlineNotAsked(replay.LogRun):
    def fault_of_log(self, log):
        return super().fault_of_log(log if log.endswith(b"\n") or not log else log + b"\n")


class AnyBlanks(replay.LogRun):
    """Fields are what stands between blanks of any kind, as Python splits them."""

    def fault_of_line(self, place, line):
        return super().fault_of_line(place, b"\t".join(line.split()))


class ZerosInFront(replay.LogRun):
    def fault_of_line(self, place, line):
        return super().fault_of_line(place, re.sub(rb"\t0+(?=[0-9])", b"\t", line))


class TimeNotTestedPastTheEnd(replay.LogRun):
    def fault_of_line(self, place, line):
        if place > self.end and (found := replay.parse_slot(line)):
            return None if replay.rise(found[1]) else (17, place)
        return super().fault_of_line(place, line)


class MissedJobsStay(replay.LogRun):
    def is_missed(self, job, t):
        return False


class NeverDemoted(replay.LogRun):
    def is_to_be_demoted(self, job):
        return False


class FreeCountKept(replay.LogRun):
    def lower_free_counts(self, n):
        pass


class FreeCountLoweredAlways(replay.LogRun):
    def is_contention_free(self, n):
        return True


WRONG = [FollowsOurReplay, EqualDeadlinesRefused, FewerAccepted, MoreAccepted, DemotedBeforeNormal, KindsForgotten,
         DeadlinesForgottenAmongDemoted, FirstRunningOnly, LowestWaitingOnly, AbsentOverlooked, JudgedPastTheEnd, NoTaskIsBadForm,
         RuleBeforeRise, NumberOfLinesFirst, TooManyAccepted, TooFewAccepted, AllReturnsSkipped, TwoReturnsDropped,
         ReturnDroppedWithoutNewline, ReturnsRefused, LastNewlineNotAsked, AnyBlanks, ZerosInFront,
         TimeNotTestedPastTheEnd, MissedJobsStay, NeverDemoted, FreeCountKept, FreeCountLoweredAlways,
         test_replay.DemotedOnlyWhereEqual, test_replay.DemotedWhereStrictlyLarger, test_replay.ComparedWithC, test_replay.NormalAgain]


class WrongChecks(unittest.TestCase):

    def test_each_is_told_by_the_logs(self):
        found = [log for log in logs.logs("wrong", 3_000) if replay.fault_of_case(*log.case) is None]
        right = [replay.LogRun(*log.case).fault_of_log(log.data) for log in found]
        told = {error.__name__: sum(error(*log.case).fault_of_log(log.data) != fault for log, fault in zip(found, right))
                for error in WRONG}
        print(f"wrong checks, each told by so many of {len(found)} logs:", told)
        for name, count in told.items():
            self.assertGreater(count, 4, name)

    def test_each_is_told_by_hand(self):
        rows = [row for row in logs.BY_HAND if replay.fault_of_case(*row.case) is None]
        right = [(row.number, row.place) for row in rows]
        for error in WRONG:
            wrong = [error(*row.case).fault_of_log(row.log) or (0, 0) for row in rows]
            self.assertNotEqual(wrong, right, error)


# ---------------------------------------------------------------------------
# The built call


def full_log():
    """A case of 32 tasks that all run in each of 100,000 slots, and the only log that it has."""
    releases = [(time, task) for time in range(0, 100_000, 10_000) for task in range(1, 33)]
    case = cases.Case(32, 1, [10_000] * 96, 100_000, cases.flat(releases))
    ran = b"".join(b"\t%d" % task for task in range(1, 33))
    return case, [b"slot\t%d%s\n" % (time, ran) for time in range(100_000)]


def long_lines():
    """Logs whose first line names very many numbers: (log, number)."""
    many = replay.slot_line(0, range(100_000))
    return [(many, 18), (many[:-1], 17), (many[:-1] + b"\t99999\n", 17), (many[:-1] + b"\t\n", 17)]


class ThroughTheArchive(unittest.TestCase):

    def test_random_logs(self):
        found = list(logs.logs("archive", COUNT))
        calls = [("check_log", (*log.case, log.data)) for log in found]
        answers = driven.hold(self, calls)
        for log, answer in zip(found, answers):
            if log.number is not None:
                self.assertEqual((answer.number, place_of(answer)), (log.number, log.place), log)
        seen = driven.tally(calls, answers)
        driven.print_tally("random logs:", seen)
        self.assertEqual(set(seen["check_log"]), NUMBERS)
        self.assertGreater(min(seen["check_log"][number] for number in (0, 17, 18, 19)), 200)
        slots = tally_of_slots(log for log, answer in zip(found, answers) if answer.number == 18)
        for words, count in sorted(slots.items()):
            print(f"  {count} of 18: {words}")
        self.assertEqual(set(slots), SLOT_REASONS)
        self.assertGreater(min(slots.values()), 20)

    def test_our_own_logs(self):
        found = [("check_log", (*case, replay.own_log(*case))) for case in cases.legal_cases("own, archive", 300)]
        self.assertEqual({answer.number for answer in driven.hold(self, found)}, {0})

    def test_full_size(self):
        case, lines = full_log()
        right = b"".join(lines)
        asked = {
            right: (0, 0),
            right[:-1]: (17, 100_000),
            right + b"slot\t100000\n": (19, 0),
            b"".join(lines[:-1]) + b"slot\t99999\n": (18, 100_000),
        }
        answers = [replay.refused(answer) if answer[0] else replay.accepted([]) for answer in asked.values()]
        driven.hold_to(self, [("check_log", (*case, log)) for log in asked], answers)

    def test_long_lines(self):
        found = long_lines()
        answers = driven.hold(self, [("check_log", (*logs.A, log)) for log, _ in found])
        self.assertEqual([(answer.number, answer.values) for answer in answers], [(number, [1]) for _, number in found])

    def test_numbers_without_any_rule(self):
        rng = random.Random("wild logs")
        calls = []
        for _ in range(300):
            case = (cases.wild(rng), cases.wild(rng), cases.wild_table(rng), cases.wild(rng), cases.wild_trace(rng))
            calls.append(("check_log", (*case, logs.any_log(rng))))
        driven.print_tally("wild cases with a log:", driven.tally(calls, driven.hold(self, calls)))


# ---------------------------------------------------------------------------
# The program


def ended(words, text, **ends):
    """The status of the script, what it printed and what it said."""
    done = subprocess.run([SCRIPT, *words], input=text, capture_output=True, timeout=120, **ends)
    return done.returncode, done.stdout, done.stderr


def right_end(text, log):
    lines = replay.log_report(text, log)
    return (2 if lines.startswith(b"refused") else 0), lines, said_of(text, log)


def can_be_written(case):
    """Whether the case has a text at all, be it one that is refused."""
    return case.policy in (0, 1) and len(case.table) % 3 == 0 and len(case.trace) % 2 == 0


class WithFiles(test_program.OfTheProgram):

    def setUp(self):
        folder = tempfile.TemporaryDirectory()
        self.addCleanup(folder.cleanup)
        self.folder = folder.name
        self.made = 0

    def put(self, data, name=None):
        """The path of a file that holds the data."""
        self.made += 1
        path = os.path.join(self.folder, name or f"log{self.made}")
        os.makedirs(os.path.dirname(path), exist_ok=True)
        with open(path, "wb") as file:
            file.write(data)
        return path

    def assertAllChecked(self, asked):
        """Each (text, log) is answered as replay.py does."""
        paths = [self.put(log) for _, log in asked]
        with ThreadPoolExecutor(2) as pool:
            found = pool.map(lambda one: ended(["log", one[1]], one[0][0]), zip(asked, paths))
            for (text, log), answer in zip(asked, found):
                self.assertEqual(answer, right_end(text, log), (text[:2000], log[:2000]))


class ByTheProgram(WithFiles):

    def test_by_hand(self):
        rows = [row for row in logs.BY_HAND if can_be_written(row.case)]
        self.assertAllChecked([(cases.text_of(row.case), row.log) for row in rows])

    def test_random_logs(self):
        found = list(logs.logs("program", ASKED))
        self.assertAllChecked([(cases.text_of(log.case), log.data) for log in found if can_be_written(log.case)])

    def test_texts_that_are_refused(self):
        log = logs.as_bytes(logs.LOG_A)
        self.assertAllChecked([(text.data, log) for text in cases.texts("with a log", 60)])

    def test_quiet(self):
        text = cases.text_of(logs.A)
        for log in (logs.LOG_A, "", "slot 0 1 2|", "slot"):
            path = self.put(logs.as_bytes(log))
            status, lines, _ = right_end(text, logs.as_bytes(log))
            for words in (["-q", "log", path], ["log", path, "-q"]):
                self.assertEqual(ended(words, text), (status, lines, b""), words)
        for words in (["-q", "slots"], ["slots", "-q"]):
            self.assertEqual(ended(words, text), (0, logs.as_bytes(logs.LOG_A), b""))
            self.assertEqual(ended(words, b""), (2, b"refused 3 1\n", b""))

    def test_our_own_log_goes_through_both(self):
        for case in cases.legal_cases("slots", 60):
            text = cases.text_of(case)
            status, log, said = ended(["slots"], text)
            self.assertEqual((status, log, said), (0, replay.own_log(*case), b""), case)
            self.assertEqual(ended(["log", self.put(log)], text), (0, b"accepted\n", b""), case)

    def test_slots_of_a_refused_case(self):
        for text in cases.texts("slots", 60):
            lines = replay.slots_report(text.data)
            if lines.startswith(b"refused"):
                self.assertEqual(ended(["slots"], text.data), (2, lines, test_program.said_of(lines)))

    def test_full_size(self):
        case, lines = full_log()
        text, log = cases.text_of(case), b"".join(lines)
        self.assertEqual(ended(["slots"], text), (0, log, b""))
        self.assertEqual(ended(["log", self.put(log)], text), (0, b"accepted\n", b""))
        self.assertEqual(ended(["log", self.put(log[:-1]), "-q"], text), (2, b"refused 17 100000\n", b""))

    def test_long_lines(self):
        text = cases.text_of(logs.A)
        for log, number in long_lines():
            self.assertEqual(ended(["log", self.put(log), "-q"], text), (2, b"refused %d 1\n" % number, b""))


class Files(WithFiles):
    """FILE: where it is, and what becomes of one that cannot be read."""

    def assertFails(self, path, why, text=None):
        """Nothing is printed, and why is said."""
        text = cases.text_of(logs.A) if text is None else text
        for words in (["log", path], ["-q", "log", path], ["log", path, "-q"]):
            status, lines, said = ended(words, text)
            self.assertEqual((status, lines), (1, b""), words)
            self.assertRegex(said.decode(), rf"\Athrumcomb: [^\n]*{re.escape(os.strerror(why))}\n\Z")

    def test_faults(self):
        path = self.put(b"")
        loop = os.path.join(self.folder, "loop")
        os.symlink(loop, loop)
        for name, why in [(os.path.join(self.folder, "none"), errno.ENOENT), ("", errno.ENOENT), (self.folder, errno.EISDIR),
                          (path + "/x", errno.ENOTDIR), (loop, errno.ELOOP)]:
            self.assertFails(name, why)

    def test_a_missing_file_comes_before_a_refusal(self):
        for text in (b"", b"procs\t33\n", b"x" * 60_001):
            self.assertFails(os.path.join(self.folder, "none"), errno.ENOENT, text)

    @unittest.skipIf(os.geteuid() == 0, "root may read everything")
    def test_no_permission(self):
        path = self.put(logs.as_bytes(logs.LOG_A))
        os.chmod(path, 0)
        self.assertFails(path, errno.EACCES)

    def test_a_case_that_cannot_be_read(self):
        path = self.put(logs.as_bytes(logs.LOG_A))
        done = subprocess.run(["sh", "-c", '"$0" log "$1" </', SCRIPT, path], capture_output=True, timeout=60)
        self.assertEqual((done.returncode, done.stdout, done.stderr), (1, b"", b"thrumcomb: read: Is a directory\n"))

    def test_an_output_that_cannot_be_written(self):
        path = self.put(logs.as_bytes(logs.LOG_A))
        for words in (["log", path], ["slots"]):
            done = subprocess.run(["sh", "-c", '"$0" "$@" >/dev/full', SCRIPT, *words], input=cases.text_of(logs.A),
                                  capture_output=True, timeout=60)
            self.assertEqual((done.returncode, done.stderr), (1, b"thrumcomb: write: No space left on device\n"), words)

    def test_names(self):
        text = cases.text_of(logs.A)
        for name in ("log", "counts", "slots", "3", "a b", "a\nb", b"\xff\xfe", "*", "$HOME"):
            self.put(logs.as_bytes(logs.LOG_A), os.fsdecode(name))
            self.assertEqual(ended(["log", name], text, cwd=self.folder), (0, b"accepted\n", b""), name)

    def test_names_that_are_not_utf_8(self):
        for name in (b"\xff", b"a\x80", b"\xc3", b"\xe2\x82", b"\xed\xa0\x80", b"\xc0\xaf", b"\xf5\x80\x80\x80", b"caf\xe9/log",
                     b"caf\xc3\xa9"):
            path = os.path.join(self.folder, os.fsdecode(name))
            self.assertFails(path, errno.ENOENT)
            self.put(logs.as_bytes(logs.LOG_A), os.fsdecode(name))
            self.assertEqual(ended(["log", path], cases.text_of(logs.A)), (0, b"accepted\n", b""), name)
            self.assertEqual(ended(["-q", "log", path], b""), (2, b"refused 3 1\n", b""), name)

    def test_long_paths(self):
        """Of each length about a power of two, up to the longest that the system takes."""
        text = cases.text_of(logs.A)
        front = os.path.join(self.folder, "")
        for length in (127, 128, 255, 256, 257, 1_023, 1_024, 2_048, 4_094, 4_095):
            name = ("d" * 99 + "/") * 40
            name = name[:length - len(front)].rstrip("/")
            name += "f" * (length - len(front) - len(name))
            path = self.put(logs.as_bytes(logs.LOG_A), name)
            self.assertEqual(len(path), length)
            self.assertEqual(ended(["log", path], text), (0, b"accepted\n", b""), length)

    def test_paths_that_are_too_long(self):
        for length in (4_096, 4_097, 9_000, 100_000):
            status, lines, said = ended(["log", "/" * length], cases.text_of(logs.A))
            self.assertEqual((status, lines), (1, b""), length)
            self.assertTrue(said.startswith(b"thrumcomb: "), said)


# ---------------------------------------------------------------------------
# A log that comes piece by piece


def held_in(end):
    """How many bytes a pipe holds that nobody has read."""
    return int.from_bytes(fcntl.ioctl(end, termios.FIONREAD, bytes(4)), sys.byteorder)


def wait_while(running, is_so):
    """Waits for a state that the running program brings about, or for its end."""
    latest = time.monotonic() + 60
    while running.poll() is None and is_so():
        if time.monotonic() > latest:
            raise AssertionError("the program does not go on")
        time.sleep(0.0001)


class Fifo:
    """The writing end of a FIFO that a running program reads."""

    def __init__(self, path, running):
        self.path, self.running, self.end = path, running, None
        wait_while(running, self.is_closed)

    def is_closed(self):
        """Nobody can write before the other end is open; as soon as it is, this one is too."""
        try:
            self.end = os.open(self.path, os.O_WRONLY | os.O_NONBLOCK)
        except OSError as fault:
            if fault.errno != errno.ENXIO:
                raise
            return True
        os.set_blocking(self.end, True)
        return False

    def write(self, piece):
        """Writes a piece and waits until it is read; gives False where nobody reads any more."""
        if self.end is None:
            return False
        try:
            while piece:
                piece = piece[os.write(self.end, piece):]
        except BrokenPipeError:
            return False
        wait_while(self.running, lambda: held_in(self.end) > 0)
        return self.running.poll() is None

    def close(self):
        if self.end is not None:
            os.close(self.end)


@contextlib.contextmanager
def reading(text):
    """The program, with a FIFO for its log, and the FIFO."""
    with tempfile.TemporaryDirectory() as folder, tempfile.TemporaryFile() as case:
        case.write(text)
        case.seek(0)
        path = os.path.join(folder, "log")
        os.mkfifo(path)
        running = subprocess.Popen([RUNNER, PROGRAM, "log", path], stdin=case, stdout=subprocess.PIPE, stderr=subprocess.PIPE)
        try:
            yield running, Fifo(path, running)
        finally:
            running.kill()
            running.communicate()


def fed(text, pieces):
    """What the program prints and says of a log that comes in these pieces."""
    with reading(text) as (running, fifo):
        all(fifo.write(piece) for piece in pieces)
        fifo.close()
        return running.communicate(timeout=60)


class InPieces(test_program.OfTheProgram):

    def assertFed(self, asked):
        """Each (text, pieces of a log) is answered as replay.py does."""
        with ThreadPoolExecutor(2) as pool:
            for (text, pieces), answer in zip(asked, pool.map(lambda one: fed(*one), asked)):
                log = b"".join(pieces)
                self.assertEqual(answer, (replay.log_report(text, log), said_of(text, log)), (text, pieces))

    def test_a_byte_at_a_time(self):
        found = {}
        for log in logs.logs("a byte at a time", 6 * len(logs.ROUND)):
            if len(log.data) <= 150 and can_be_written(log.case):
                found.setdefault((log.kind, checked(log)[0]), log)
        self.assertGreater(len(found), 36)
        self.assertFed([(cases.text_of(log.case), [log.data[at:at + 1] for at in range(len(log.data))]) for log in found.values()])

    def test_cut_at_every_byte(self):
        good = "slot 0 2|slot 1 1|slot 2 1|slot 3|"
        returned = good.replace("|", "\r|")
        for_all = [good, good.replace("2 1", "2 2"), good.replace("1 1", "1 2 1"), good + "slot 4|", good + "slot 4 1", good[:-1] + " |",
                   returned, returned.replace("2 1", "2 2"), returned[:-1], returned + "\r", good.replace("1 1", "1 1\r\r"),
                   good.replace("1 1", "1\r 1")]
        text = cases.text_of(logs.TWO_AND_ONE)
        asked = []
        for log in map(logs.as_bytes, for_all):
            asked += [(text, [log[:cut], log[cut:]]) for cut in range(1, len(log))]
        self.assertFed(asked)

    def test_nothing_comes(self):
        self.assertFed([(cases.text_of(logs.A), []), (b"", [])])


# ---------------------------------------------------------------------------
# A log of any length


def endless_lines():
    """Over 100 MB of a log in pieces: set A's own, then a line of 1,000,000 numbers, and then lines that name 32 tasks each."""
    yield logs.as_bytes(logs.LOG_A) + replay.slot_line(10, range(1_000_000))
    ran = b"".join(b"\t%d" % task for task in range(1, 33)) + b"\n"
    for first in range(11, 1_020_011, 10_000):
        yield b"".join(b"slot\t%d%s" % (time, ran) for time in range(first, first + 10_000))


def peak_of(running):
    """The most memory that a running process has had, in bytes.

    What os.wait4 tells would not be less than this test's own, which is taken
    over where a process is started.
    """
    with open(f"/proc/{running.pid}/status", encoding="ascii") as file:
        return int(re.search(r"VmHWM:\s+(\d+) kB", file.read()).group(1)) * 1024


class OfAnyLength(test_program.OfTheProgram):

    def test_over_100_megabytes(self):
        """Read as they come, and not kept: the answer is known at the end alone."""
        with reading(cases.text_of(logs.A)) as (running, fifo):
            length, began = 0, time.monotonic()
            for piece in endless_lines():
                self.assertTrue(fifo.write(piece))
                length += len(piece)
            peak = peak_of(running)
            fifo.close()
            lines, said = running.communicate(timeout=60)
        print(f"a log of {length} bytes took {time.monotonic() - began:.1f} s and {peak} bytes of memory at the most")
        self.assertEqual((lines, said), (b"refused 19 0\n", b"thrumcomb: log: its number of lines is not the end\n"))
        self.assertGreater(length, 100_000_000)
        self.assertLess(peak, MOST_MEMORY)


if __name__ == "__main__":
    unittest.main()
