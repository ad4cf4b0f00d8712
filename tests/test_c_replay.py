"""The plain C replay and the plain C check of a log give the answers of replay.py."""

import os
import random
import shutil
import subprocess
import tempfile
import unittest

import cases
import logs
import replay

HERE = os.path.dirname(os.path.abspath(__file__))
BENCH = os.path.join(os.path.dirname(HERE), "bench")
COMPILER = shutil.which("cc") or shutil.which("gcc")


def compiled(program, *sources, flags=()):
    subprocess.run([COMPILER, "-std=c99", "-O2", "-Wall", "-Wextra",
                    "-pedantic", "-Werror", *flags, "-o", program,
                    *(os.path.join(BENCH, source) for source in sources)],
                   check=True)


def input_for(procs, policy, table, end, trace, room_length, repeat):
    numbers = [procs, policy, len(table), *table, end, len(trace), *trace,
               room_length, repeat]
    return " ".join(map(str, numbers)) + "\n"


def output_for(procs, policy, table, end, trace, room_length):
    """What the C program is to print, worked out from replay.py."""
    room = list(range(room_length))
    answer = replay.replay(procs, policy, table, end, trace, room)
    checksum = 0
    for number in answer.rooms[0]:
        checksum = (31 * checksum + number) % 2**32
    first = " ".join(map(str, [answer.number, *answer.values]))
    return f"{first}\nchecksum {checksum}\n"


@unittest.skipIf(COMPILER is None, "no C compiler is found")
class CReplay(unittest.TestCase):

    @classmethod
    def setUpClass(cls):
        cls.folder = tempfile.TemporaryDirectory()
        cls.program = os.path.join(cls.folder.name, "replay")
        compiled(cls.program, "replay.c")

    @classmethod
    def tearDownClass(cls):
        cls.folder.cleanup()

    def assertSame(self, case, room_length, repeat=1):
        done = subprocess.run([self.program],
                              input=input_for(*case, room_length, repeat),
                              capture_output=True, text=True, check=True)
        self.assertEqual(done.stdout, output_for(*case, room_length), case)

    def test_a_case_by_hand(self):
        # Records 1 2 1, 1 1 0, 1 5 0, and the number 9 left in the room.
        case = (2, 1, [10, 1, 4, 10, 1, 1, 10, 5, 5], 10, [0, 1, 0, 2, 0, 3])
        checksum = 0
        for number in [1, 2, 1, 1, 1, 0, 1, 5, 0, 9]:
            checksum = (31 * checksum + number) % 2**32
        done = subprocess.run([self.program], input=input_for(*case, 10, 1),
                              capture_output=True, text=True, check=True)
        self.assertEqual(done.stdout, f"0 3 0 0\nchecksum {checksum}\n")

    def test_legal_cases_under_both_policies(self):
        for case in cases.legal_cases("c", 250):
            needed = 3 * (len(case.trace) // 2)
            for policy in (replay.EDF, replay.EDF_CF):
                self.assertSame(case._replace(policy=policy), needed + 2)

    def test_repeats_give_the_same(self):
        for case in cases.legal_cases("c repeats", 40):
            needed = 3 * (len(case.trace) // 2)
            self.assertSame(case, needed, repeat=3)
            self.assertSame(case, needed, repeat=0)

    def test_large_cases(self):
        rng = random.Random("c large")
        for case in [*cases.large_cases("c", 6), cases.full_case(rng, 1)]:
            self.assertSame(case, 3 * (len(case.trace) // 2))

    def test_calls_that_are_refused(self):
        met = set()
        for call in cases.calls("c", 800):
            if call.name == "replay":
                *case, room = call.args
                self.assertSame(case, len(room))
                met.add(call.number)
        self.assertEqual(met, set(cases.AIMS["replay"]))


def log_input(case, log):
    """A call as bench/log.c reads it."""
    numbers = [case.procs, case.policy, len(case.table), *case.table, case.end,
               len(case.trace), *case.trace, len(log)]
    return " ".join(map(str, numbers)).encode() + b"\n" + log + b"\n"


@unittest.skipIf(COMPILER is None, "no C compiler is found")
class CLog(unittest.TestCase):

    @classmethod
    def setUpClass(cls):
        cls.folder = tempfile.TemporaryDirectory()
        cls.program = os.path.join(cls.folder.name, "log")
        compiled(cls.program, "replay.c", "log.c",
                 flags=["-DREPLAY_ONLY", "-DLOG_MAIN"])

    @classmethod
    def tearDownClass(cls):
        cls.folder.cleanup()

    def answers(self, asked):
        """What the C check says of each (case, log)."""
        said = b"".join(log_input(*one) for one in asked)
        done = subprocess.run([self.program], input=said, capture_output=True,
                              check=True)
        return [tuple(map(int, line.split()))
                for line in done.stdout.splitlines()]

    def assertSame(self, asked):
        found = self.answers(asked)
        self.assertEqual(len(found), len(asked))
        for (case, log), answer in zip(asked, found):
            right = replay.check_log(*case, log)
            self.assertEqual(answer, (right.number, *right.values), (case, log))

    def test_logs_by_hand(self):
        found = self.answers([(row.case, row.log) for row in logs.BY_HAND])
        right = [(row.number, row.place) if row.number else (0,)
                 for row in logs.BY_HAND]
        self.assertEqual(found, right)

    def test_random_logs(self):
        self.assertSame([(log.case, log.data) for log in logs.logs("c", 5_000)])

    def test_our_own_logs(self):
        found = self.answers([(case, replay.own_log(*case))
                              for case in cases.legal_cases("c logs", 300)])
        self.assertEqual(set(found), {(0,)})

    def test_a_large_case(self):
        case = cases.full_case(random.Random("c log"), 1)
        log = replay.own_log(*case)
        turned = case._replace(policy=0)
        self.assertEqual(self.answers([(case, log), (case, log[:-1])]),
                         [(0,), (17, 100_000)])
        self.assertSame([(turned, log)])


if __name__ == "__main__":
    unittest.main()
