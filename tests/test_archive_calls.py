"""Calls from C with everything lent between guard words; and the driver that makes them, archive_drive.c."""

import unittest

import cases
import driven
import replay

CALLS = 1_320
TEXTS = 400
CONVERSIONS = 800

SET_A = [10, 1, 4, 10, 1, 1, 10, 5, 5]
ALL_AT_0 = [0, 1, 0, 2, 0, 3]
COUNTS = b"counts n2 w9 10 1 4 10 1 1 10 5 5 w4 7+4\n"

# Inputs that are not written as a call is, and a word of what is said of each.
MISWRITTEN = [
    (b"\n", b"no call of that name"),
    (b"count n2 w0 w0\n", b"no call of that name"),
    (b"counts\n", b"other kinds"),
    (b"counts n2 w0\n", b"other kinds"),
    (b"counts n2 w0 w0 w0\n", b"other kinds"),
    (b"counts n2 w0 b0 \n", b"other kinds"),
    (b"convert b1 x\n", b"other kinds"),
    (b"convert b1 x w0\n", b"other kinds"),
    (b"counts n2 w0 x0\n", b"no kind that there is"),
    (b"counts 2 w0 w0\n", b"no kind that there is"),
    (b"counts n2 w0 w0 \n", b"no kind that there is"),
    (b"counts n2  w0 w0\n", b"no kind that there is"),
    (b"counts n2 w0 w0", b"not written"),
    (b"counts n w0 w0\n", b"number is missing"),
    (b"counts n-1 w0 w0\n", b"number is missing"),
    (b"counts n4294967296 w0 w0\n", b"over 4294967295"),
    (b"counts n2 w1 99999999999999999999 w0\n", b"over 4294967295"),
    (b"counts n2 w3 1 2 w0\n", b"number is missing"),
    (b"counts n2 w1 1 2 w0\n", b"no kind that there is"),
    (b"counts n2 w3 1+4 w0\n", b"run of numbers"),
    (b"counts n2 w3 1+0 w0\n", b"run of numbers"),
    (b"counts n2 w3 4294967294+3 w0\n", b"run of numbers"),
    (b"read b5 abc", b"ends within a slice"),
    (b"read b2 abc w0 w0\n", b"not written"),
    (b"counts" + b" n1" * 13 + b"\n", b"not written"),
    (b"c" * 50 + b" n1\n", b"not written"),
]


class RandomCalls(unittest.TestCase):

    def test_calls_on_numbers(self):
        calls = [(call.name, call.args) for call in cases.calls("archive", CALLS)]
        seen = driven.tally(calls, driven.hold(self, calls))
        driven.print_tally("random calls from C:", seen)
        for name, aims in cases.AIMS.items():
            self.assertEqual(set(seen[name]), set(aims), name)

    def test_texts(self):
        calls = [("read_case", (text.data, text.task_room, text.release_room))
                 for text in cases.texts("archive", TEXTS)]
        seen = driven.tally(calls, driven.hold(self, calls))
        driven.print_tally("random texts from C:", seen)
        self.assertEqual(set(seen["read_case"]), {*range(14), 16})

    def test_conversions(self):
        calls = [("convert", (drawn.data, drawn.room))
                 for drawn in cases.conversions("archive", CONVERSIONS)]
        seen = driven.tally(calls, driven.hold(self, calls))
        driven.print_tally("random conversions from C:", seen)
        self.assertEqual(set(seen["convert"]), set(cases.CONVERT_AIMS))


class OfAnyLength(unittest.TestCase):

    def test_slices_far_beyond_what_a_call_takes(self):
        """Each call has its answer for them, and the driver leaves none of their numbers out."""
        tables = [[10, 1, 4] * tasks for tasks in (100, 101, 7_000)]
        traces = [list(range(length)) for length in (6_001, 6_002, 40_000)]
        room, bytes_room = list(range(50_000)), bytes(range(256)) * 1_000
        calls = []
        for table in tables + [SET_A]:
            calls.append(("counts", (2, table, room)))
            for trace in traces + [ALL_AT_0]:
                case = (2, 1, table, 10, trace)
                calls += [("replay", (*case, room)), ("running_set", (*case, 0)),
                          ("write_case", (*case, bytes_room)), ("check_log", (*case, bytes_room))]
        calls += [("read_case", (b"\n" * 1_000_000, room, room)),
                  ("read_case", (cases.text_of(cases.Case(2, 1, SET_A, 10, ALL_AT_0)), room, room)),
                  ("convert", (b"\n" * 1_000_000, bytes_room)),
                  ("convert", (cases.text_of(cases.Case(2, 0, SET_A, 10, ALL_AT_0), with_policy=False), bytes_room))]
        seen = driven.tally(calls, driven.hold(self, calls))
        self.assertEqual({name: set(numbers) for name, numbers in seen.items()},
                         {"counts": {0, 5}, "replay": {0, 5, 12}, "running_set": {0, 5, 12},
                          "write_case": {0, 5, 12}, "read_case": {0, 1}, "check_log": {5, 12, 17},
                          "convert": {0, 1}})


class TheDriver(unittest.TestCase):
    """What is not a call is not guessed at, and what a call did wrongly would be seen."""

    def test_a_call_as_it_is_written(self):
        call = ("counts", (2, SET_A, [7, 8, 9, 10]))
        self.assertEqual(driven.written_call(*call), COUNTS)
        line = driven.line_for(call, replay.accepted([3], [1, 0, 2, 10]))
        self.assertEqual(line, b"0 ; 2654435769+17 ; " + b" ".join(
            [b"%d" % (11400714819323198485 + i) for i in range(8)] + [b"3"] +
            [b"%d" % (11400714819323198485 + i) for i in range(9, 21)]) +
            b" ; 2654435769+8 10 1 4 10 1 1 10 5 5 2654435769+8"
            b" ; 2654435769+8 1 0 2 10 2654435769+8")
        self.assertEqual(driven.run_driver(COUNTS), (0, line + b"\n", b""))

    def test_what_is_not_a_call(self):
        for said, why in MISWRITTEN:
            with self.subTest(said=said):
                status, output, errors = driven.run_driver(COUNTS + said)
                self.assertEqual((status, output.count(b"\n")), (1, 1))
                self.assertIn(b"call 2", errors)
                self.assertIn(why, errors)

    def test_no_calls(self):
        self.assertEqual(driven.run_driver(b""), (0, b"", b""))

    def test_a_call_of_another_number_of_arguments(self):
        with self.assertRaises(ValueError):
            driven.written_call("counts", (2, SET_A))

    def test_each_number_that_differs_is_told(self):
        call = ("counts", (2, SET_A, [7, 8, 9, 10]))
        must = driven.line_for(call, replay.accepted([3], [1, 0, 2, 10]))
        self.assertIsNone(driven.difference(must, must))
        wrong = {"number": driven.line_for(call, replay.refused((13, 0), [1, 0, 2, 10])),
                 "results": driven.line_for(call, replay.accepted([3, 3], [1, 0, 2, 10])),
                 "slice 1": driven.line_for(("counts", (2, SET_A[:-1] + [6], [7, 8, 9, 10])),
                                            replay.accepted([3], [1, 0, 2, 10])),
                 "slice 2": driven.line_for(call, replay.accepted([3], [1, 0, 2, 9])),
                 "slice 3": must + b" ; 1"}
        for part, line in wrong.items():
            self.assertTrue(driven.difference(line, must).startswith(part), part)
        # A guard word on either side, and the place of a call that was not refused.
        for old in (b"2654435769+8", b"2654435769+17"):
            at = must.rindex(old)
            changed = must[:at] + b"2654435768" + must[at + 10:]
            self.assertIsNotNone(driven.difference(changed, must))


if __name__ == "__main__":
    unittest.main()
