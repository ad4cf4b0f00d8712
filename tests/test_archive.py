"""The calls from C and Rust: calls worked by hand through the archive of the crate thrumcomb,
and the declarations for both.

A build that fails is a failure.
"""

import os
import re
import shutil
import subprocess
import tempfile
import unittest

import cases
import driven
import logs
import replay
from kit import INCLUDE, archive, kit, run

RUST = shutil.which("rustc")

# The calls that header and Rust declare, by their names in replay.py, each with how many rooms are lent to it.
ROOMS = {"counts": 1, "replay": 1, "running_set": 0, "read_case": 2, "write_case": 1, "check_log": 0, "convert": 1}

SET_A = [10, 1, 4, 10, 1, 1, 10, 5, 5]
SET_B = [15, 5, 9, 15, 5, 9, 15, 6, 10]
ALL_AT_0 = [0, 1, 0, 2, 0, 3]
ABSENT = [0, 1, 0, 2]
LARGEST = 4294967295

HEAD_A = b"procs\t2\n"
REST_A = (b"task\t10\t1\t4\ntask\t10\t1\t1\ntask\t10\t5\t5\nend\t10\n"
          b"release\t0\t1\nrelease\t0\t2\nrelease\t0\t3\n")
TEXT_A = HEAD_A + b"policy\tedf-cf\n" + REST_A
TEXT_B = (b"procs\t32\npolicy\tedf\ntask\t15\t5\t9\ntask\t15\t5\t9\ntask\t15\t6\t10\nend\t100000\n"
          b"release\t0\t2\nrelease\t99998\t3\nrelease\t99999\t1\n")
TEXT_ABSENT = HEAD_A + b"policy\tedf-cf\n" + REST_A.replace(b"release\t0\t3\n", b"")

# How the longest text starts once it is converted.
HEAD_LONGEST = b"procs\t32\npolicy\tedf\n"
HEAD_RETURNED = b"procs\t32\r\npolicy\tedf\n"


# ---------------------------------------------------------------------------
# Calls worked by hand from document 01, each with its whole answer


def room(length):
    """Another number at every place, so that one that moved shows itself."""
    return [2654435761 * (i + 1) % 2**32 for i in range(length)]


def bytes_room(length):
    return bytes(number >> 24 for number in room(length))


def taken(what, name, args, values, *fronts):
    """A call that gives values and puts out what stands at the front of its rooms."""
    rooms = args[len(args) - ROOMS[name]:]
    return what, (name, args), replay.accepted(values, *map(replay.put_at_front, fronts, rooms))


def refused(what, name, args, number, place=0):
    rooms = args[len(args) - ROOMS[name]:]
    return what, (name, args), replay.refused((number, place), *rooms)


def of_counts():
    second_broken = [10, 1, 4, 10, 2, 1, 10, 6, 5]
    yield taken("set A", "counts", (2, SET_A, room(3)), [3], [1, 0, 2])
    yield taken("set B in a longer room", "counts", (2, SET_B, room(40)), [3], [0, 0, 1])
    yield refused("no processor", "counts", (0, SET_A, room(3)), 4)
    yield refused("33 processors before all else", "counts", (33, second_broken[:8], []), 4)
    yield refused("no task", "counts", (2, [], room(3)), 5)
    yield refused("not in threes", "counts", (2, SET_A[:8], room(3)), 5)
    yield refused("33 tasks", "counts", (2, [1] * 99, room(40)), 5)
    yield refused("the lowest broken task", "counts", (2, second_broken, []), 6, 2)
    yield refused("a period over 10,000", "counts", (2, [10001, 1, 4], room(3)), 6, 1)
    yield refused("room one short", "counts", (2, SET_A, room(2)), 13)
    yield refused("no room", "counts", (2, SET_A, []), 13)


def of_replay():
    for what, case, length, totals, records in [
            ("set A under EDF-CF", (2, 1, SET_A, 10, ALL_AT_0), 9, [3, 0, 0], [1, 2, 1, 1, 1, 0, 1, 5, 0]),
            ("set A under EDF in a longer room", (2, 0, SET_A, 10, ALL_AT_0), 6000, [2, 1, 0], [1, 1, 0, 1, 1, 0, 2, 0, 0]),
            ("set B", (2, 0, SET_B, 10, ALL_AT_0), 9, [2, 1, 0], [1, 5, 0, 1, 5, 0, 2, 0, 0]),
            ("set B with end 9", (2, 0, SET_B, 9, ALL_AT_0), 10, [2, 0, 1], [1, 5, 0, 1, 5, 0, 3, 0, 0]),
            ("one slot", (2, 0, SET_A, 1, ALL_AT_0), 9, [2, 0, 1], [1, 1, 0, 1, 1, 0, 3, 0, 0]),
            ("T between releases", (2, 0, SET_A, 20, [0, 1, 4, 2, 10, 1, 10, 3]), 12, [4, 0, 0],
             [1, 1, 0, 1, 5, 0, 1, 11, 0, 1, 15, 0])]:
        yield taken(what, "replay", (*case, room(length)), totals, records)
    for what, case, length, number, place in [
            ("33 processors", (33, 2, SET_A, 10, ALL_AT_0), 9, 4, 0),
            ("policy 2", (2, 2, SET_A, 100001, ALL_AT_0), 9, 14, 0),
            ("task numbers not in threes", (2, 1, SET_A[:7], 10, ALL_AT_0), 9, 5, 0),
            ("a broken task", (2, 1, ALL_AT_0, 10, ALL_AT_0), 9, 6, 1),
            ("end over 100,000", (2, 1, SET_A, 100001, ALL_AT_0), 9, 7, 0),
            ("release numbers not in twos", (2, 1, SET_A, 10, ALL_AT_0[:5]), 9, 12, 0),
            ("over 2,000 releases", (2, 1, SET_A, 10, [0] * 4002), 6003, 12, 0),
            ("a release of no task", (2, 1, SET_A, 10, [0, 0]), 9, 8, 1),
            ("a release of a fourth task", (2, 1, SET_A, 10, [0, 1, 0, 4]), 9, 8, 2),
            ("a release at the end", (2, 0, SET_A, 20, [0, 1, 20, 2]), 9, 11, 2),
            ("releases out of order", (2, 1, SET_A, 10, [0, 2, 0, 1]), 9, 9, 2),
            ("the same release twice", (2, 1, SET_A, 10, [0, 1, 0, 1]), 9, 9, 2),
            ("less than T between releases", (2, 0, SET_A, 20, [0, 1, 9, 1]), 0, 10, 2),
            ("no release", (2, 0, SET_A, 0, []), 0, 16, 1),
            ("a third task without a release", (2, 1, SET_A, 10, ABSENT), 9, 16, 3),
            ("the same before the room", (2, 1, SET_A, 10, ABSENT), 5, 16, 3),
            ("the lowest of two tasks without a release", (2, 1, SET_A, 20, [0, 1, 10, 1]), 6, 16, 2),
            ("a third task whose only release is at the end", (2, 1, SET_A, 10, [0, 1, 0, 2, 10, 3]), 9, 11, 3),
            ("a second task whose only release is out of order", (2, 1, SET_A, 10, [0, 1, 0, 3, 0, 2]), 9, 9, 3),
            ("room one short", (2, 1, SET_A, 10, ALL_AT_0), 8, 13, 0),
            ("no room", (2, 1, SET_A, 10, ALL_AT_0), 0, 13, 0)]:
        yield refused(what, "replay", (*case, room(length)), number, place)


def of_running_set():
    full = (32, 0, [1] * 96, 1, [number for task in range(1, 33) for number in (0, task)])
    a = (2, 1, SET_A, 10, ALL_AT_0)
    yield taken("set A at slot 0 under EDF", "running_set", (2, 0, SET_A, 10, ALL_AT_0, 0), [3])
    yield taken("set A at slot 0 under EDF-CF", "running_set", (*a, 0), [6])
    yield taken("set A at slot 1", "running_set", (*a, 1), [5])
    yield taken("set A at slot 9", "running_set", (*a, 9), [0])
    yield taken("32 tasks on 32 processors", "running_set", (*full, 0), [LARGEST])
    yield refused("slot at the end", "running_set", (*a, 10), 15)
    yield refused("the largest slot", "running_set", (*a, LARGEST), 15)
    yield refused("no processor", "running_set", (0, 1, SET_A, 10, ALL_AT_0, 10), 4)
    yield refused("policy 4294967295", "running_set", (2, LARGEST, SET_A, 10, ALL_AT_0, 0), 14)
    yield refused("the same release twice", "running_set", (2, 1, SET_A, 10, [0, 1, 0, 1], 10), 9, 2)
    yield refused("no release", "running_set", (2, 1, SET_A, 0, [], 0), 16, 1)
    yield refused("a third task without a release", "running_set", (2, 1, SET_A, 10, ABSENT, 0), 16, 3)
    yield refused("the same before the slot", "running_set", (2, 1, SET_A, 10, ABSENT, 10), 16, 3)


def of_read():
    rooms = (room(96), room(4000))
    for what, text, policy in [("the case of document 01", TEXT_A, 1), ("without a policy line", HEAD_A + REST_A, 0),
                               ("the same with its policy line", HEAD_A + b"policy\tedf\n" + REST_A, 0)]:
        yield taken(what, "read_case", (text, *rooms), [2, policy, 10, 3, 3], SET_A, ALL_AT_0)
    yield refused("room for 95 task numbers", "read_case", (b"\n" * 60001, room(95), room(4000)), 13)
    yield refused("room for 3,999 release numbers", "read_case", (TEXT_A, room(96), room(3999)), 13)
    yield refused("a last line without its newline", "read_case", (TEXT_A[:-1], room(97), room(4001)), 2, 9)
    for what, text, number, place in [
            ("text of 60,001 bytes", b"\n" * 60001, 1, 0),
            ("text of 60,000 bytes", b"\n" * 60000, 2, 1),
            ("a leading zero", b"procs\t02\ntask\t10\t1\t4\nend\t10\n", 2, 1),
            ("a second line that is cut", b"procs\t2\nend", 2, 2),
            ("no byte", b"", 3, 1),
            ("no task", b"procs\t2\nend\t10\n", 3, 2),
            ("no end", b"procs\t2\ntask\t10\t1\t4\n", 3, 3),
            ("33 processors", b"procs\t33\ntask\t10\t1\t4\nend\t10\n", 4, 0),
            ("a broken task", b"procs\t2\ntask\t10\t1\t4\ntask\t1\t2\t3\nend\t10\n", 6, 2),
            ("end over 100,000", b"procs\t2\ntask\t10\t1\t4\nend\t100001\n", 7, 0),
            ("a release of no task", b"procs\t2\ntask\t10\t1\t4\nend\t10\nrelease\t0\t2\n", 8, 1),
            ("a release at the end", b"procs\t2\ntask\t10\t1\t4\nend\t10\nrelease\t0\t1\nrelease\t10\t1\n", 11, 2),
            ("no release", b"procs\t2\ntask\t10\t1\t4\nend\t0\n", 16, 1),
            ("a third task without a release", TEXT_ABSENT, 16, 3),
            ("the same and a release of a fourth task", TEXT_ABSENT + b"release\t1\t4\n", 8, 3),
            ("the same and a cut line", TEXT_ABSENT + b"release\t0\t3", 2, 9)]:
        yield refused(what, "read_case", (text, *rooms), number, place)


def of_write():
    a = (2, 1, SET_A, 10, ALL_AT_0)
    for what, case, spare, text in [
            ("the case of document 01", a, 0, TEXT_A),
            ("the same into a longer room", a, 1000, TEXT_A),
            ("a case with one release a task", (32, 0, SET_B, 100000, [0, 2, 99998, 3, 99999, 1]), 1, TEXT_B)]:
        yield taken(what, "write_case", (*case, bytes_room(len(text) + spare)), [len(text)], text)
    for what, case, length, number, place in [
            ("room one short", a, len(TEXT_A) - 1, 13, 0),
            ("no room", a, 0, 13, 0),
            ("no processor", (0, 2, SET_A, 10, ALL_AT_0), 1000, 4, 0),
            ("policy 2", (2, 2, SET_A, 100001, ALL_AT_0), 1000, 14, 0),
            ("end over 100,000", (2, 1, SET_A, 100001, ALL_AT_0), 0, 7, 0),
            ("less than T between releases", (2, 1, SET_A, 20, [0, 1, 9, 1]), 0, 10, 2),
            ("no release", (32, 0, SET_B, 100000, []), 1000, 16, 1),
            ("a third task without a release", (2, 1, SET_A, 10, ABSENT), 1000, 16, 3),
            ("the same before the room", (2, 1, SET_A, 10, ABSENT), 0, 16, 3)]:
        yield refused(what, "write_case", (*case, bytes_room(length)), number, place)


# Texts and what each is converted to. A return stays where it is, and the line that is put in has none.
CONVERTED = [
    ("set A",
     b"procs\t2\ntask\t10\t1\t4\ntask\t10\t1\t1\ntask\t10\t5\t5\nend\t10\n"
     b"release\t0\t1\nrelease\t0\t2\nrelease\t0\t3\n",
     b"procs\t2\npolicy\tedf\ntask\t10\t1\t4\ntask\t10\t1\t1\ntask\t10\t5\t5\nend\t10\n"
     b"release\t0\t1\nrelease\t0\t2\nrelease\t0\t3\n"),
    ("a return on every line",
     b"procs\t1\r\ntask\t5\t1\t5\r\nend\t9\r\nrelease\t0\t1\r\n",
     b"procs\t1\r\npolicy\tedf\ntask\t5\t1\t5\r\nend\t9\r\nrelease\t0\t1\r\n"),
    ("a return on the procs line alone",
     b"procs\t32\r\ntask\t5\t1\t5\nend\t9\nrelease\t0\t1\n",
     b"procs\t32\r\npolicy\tedf\ntask\t5\t1\t5\nend\t9\nrelease\t0\t1\n"),
    ("returns on all lines but the procs line",
     b"procs\t1\ntask\t5\t1\t5\r\nend\t9\r\nrelease\t0\t1\r\n",
     b"procs\t1\npolicy\tedf\ntask\t5\t1\t5\r\nend\t9\r\nrelease\t0\t1\r\n"),
    ("a return on the last line alone",
     b"procs\t1\ntask\t5\t1\t5\nend\t9\nrelease\t0\t1\r\n",
     b"procs\t1\npolicy\tedf\ntask\t5\t1\t5\nend\t9\nrelease\t0\t1\r\n"),
    ("a policy line of EDF",
     b"procs\t1\npolicy\tedf\ntask\t5\t1\t5\nend\t9\nrelease\t0\t1\n",
     b"procs\t1\npolicy\tedf\ntask\t5\t1\t5\nend\t9\nrelease\t0\t1\n"),
    ("a policy line of EDF-CF, with returns on some lines",
     b"procs\t1\r\npolicy\tedf-cf\ntask\t5\t1\t5\r\nend\t9\nrelease\t0\t1\r\n",
     b"procs\t1\r\npolicy\tedf-cf\ntask\t5\t1\t5\r\nend\t9\nrelease\t0\t1\r\n"),
    ("a policy line of EDF with a return",
     b"procs\t1\npolicy\tedf\r\ntask\t5\t1\t5\nend\t9\nrelease\t0\t1\n",
     b"procs\t1\npolicy\tedf\r\ntask\t5\t1\t5\nend\t9\nrelease\t0\t1\n"),
]


def of_convert_into_rooms():
    """Each of the texts into rooms that hold it, and into rooms that are too short."""
    for what, text, result in CONVERTED:
        length = len(result)
        for spare, into in (0, ""), (1, ", and one byte more"), (1000, ", and a longer room"):
            yield taken(what + into, "convert", (text, bytes_room(length + spare)), [length], result)
        for short, into in (length - 1, "one short"), (length - 11, "a line short"), (0, "no room"):
            yield refused(f"{what}, {into}", "convert", (text, bytes_room(short)), 13)


# Lines of a case that stands, for those that are spoiled.
TASK, REST = b"task\t5\t1\t5\n", b"task\t5\t1\t5\nend\t9\nrelease\t0\t1\n"


def of_convert():
    yield from of_convert_into_rooms()
    longest = cases.text_of(cases.longest_text_case(), with_policy=False)
    returned = longest.replace(b"\n", b"\r\n")
    yield taken("a longest text", "convert", (longest, bytes_room(60000)), [34749], HEAD_LONGEST + longest[9:])
    yield taken("the same with returns", "convert", (returned, bytes_room(36783)), [36783], HEAD_RETURNED + returned[10:])
    yield refused("the same, one byte short", "convert", (returned, bytes_room(36782)), 13)
    for what, text, number, place in [
            ("text of 60,001 bytes", b"\n" * 60001, 1, 0),
            ("text of 60,000 bytes", b"\n" * 60000, 2, 1),
            ("a policy line with two returns", b"procs\t1\npolicy\tedf\r\r\n" + REST, 2, 2),
            ("a last line without its newline", TEXT_A[:-1], 2, 9),
            ("no byte", b"", 3, 1),
            ("a procs line alone", b"procs\t2\n", 3, 2),
            ("two policy lines", b"procs\t1\npolicy\tedf\npolicy\tedf\n" + REST, 3, 3),
            ("a policy line behind a task", b"procs\t1\n" + TASK + b"policy\tedf\n" + REST, 3, 3),
            ("33 processors", b"procs\t33\n" + REST, 4, 0),
            ("33 tasks", b"procs\t1\n" + TASK * 32 + REST, 5, 0),
            ("a broken task", b"procs\t1\ntask\t5\t6\t5\nend\t9\nrelease\t0\t1\n", 6, 1),
            ("end over 100,000", b"procs\t1\n" + TASK + b"end\t100001\nrelease\t0\t1\n", 7, 0),
            ("a release of no task", b"procs\t1\n" + REST + b"release\t5\t2\n", 8, 2),
            ("the same release twice", b"procs\t1\n" + REST + b"release\t0\t1\n", 9, 2),
            ("less than T between releases", b"procs\t1\n" + REST + b"release\t4\t1\n", 10, 2),
            ("a release at the end", b"procs\t1\n" + REST + b"release\t9\t1\n", 11, 2),
            ("2,001 releases", b"procs\t1\n" + REST + b"release\t0\t1\n" * 2000, 12, 0),
            ("a third task without a release", TEXT_ABSENT, 16, 3)]:
        # A text that the reader refuses is refused so in any room.
        for length in (0, len(text) + 11):
            yield refused(f"{what}, {length} bytes of room", "convert", (text, bytes_room(length)), number, place)


def of_check_log():
    """The logs of logs.py that are worked by hand."""
    for row in logs.BY_HAND:
        args = (*row.case, row.log)
        if row.number == 0:
            yield taken(row.what, "check_log", args, [])
        else:
            yield refused(row.what, "check_log", args, row.number, row.place)


BY_HAND = [*of_counts(), *of_replay(), *of_running_set(), *of_read(), *of_write(), *of_check_log(), *of_convert()]


class FromC(unittest.TestCase):

    def test_every_call_is_right(self):
        driven.hold_to(self, [call for _, call, _ in BY_HAND], [answer for _, _, answer in BY_HAND])

    def test_replay_py_says_the_same(self):
        for what, (name, args), answer in BY_HAND:
            with self.subTest(call=name, what=what):
                self.assertEqual(getattr(replay, name)(*args), answer)

    def test_no_call_is_left_out(self):
        self.assertEqual(set(driven.CALLS), set(ROOMS))
        for name in driven.CALLS:
            tried = [call for _, call, _ in BY_HAND if call[0] == name]
            self.assertGreater(len(tried), 8, name)


class Calls(unittest.TestCase):
    """The archive linked by itself: what it calls has to be given."""

    def linked_with(self, *names):
        with tempfile.TemporaryDirectory() as folder:
            return subprocess.run([os.path.join(kit(), "toolchain", "bin", "ld.lld"), "-m", "elf_x86_64",
                                   "-e", "thrumcomb_counts", "-o", os.path.join(folder, "linked"),
                                   "--whole-archive", archive(), *(f"--defsym={name}=0" for name in names)],
                                  stdout=subprocess.PIPE, stderr=subprocess.STDOUT).returncode == 0

    def test_the_archive_calls_only_these(self):
        self.assertTrue(self.linked_with("memcpy", "memset"))
        self.assertFalse(self.linked_with("memset"))
        self.assertFalse(self.linked_with("memcpy"))


# ---------------------------------------------------------------------------
# Declarations


def declared(text):
    """The exported names that a text mentions, each with its parameter count."""
    text = re.sub(r"/\*.*?\*/|//[^\n]*", "", text, flags=re.S)
    found = re.findall(r"\bthrumcomb_(\w+)\(([^()]*)\)\s*(?:->\s*u32\s*)?;", text)
    return {name: len([word for word in words.split(",") if word.strip()])
            for name, words in found}


def text_of(name):
    with open(os.path.join(INCLUDE, name)) as file:
        return file.read()


class Declarations(unittest.TestCase):

    def test_header_and_rust_declare_the_same(self):
        header = declared(text_of("thrumcomb.h"))
        self.assertEqual(sorted(header), sorted(name for name, _ in driven.CALLS.values()))
        # Rust's declarations end with a comma after the last parameter.
        self.assertEqual(declared(text_of("thrumcomb.rs")), header)

    @unittest.skipIf(RUST is None, "no rustc is found")
    def test_rust_compiles(self):
        with tempfile.TemporaryDirectory() as place:
            run(RUST, "--edition", "2021", "--crate-type", "lib",
                "--crate-name", "thrumcomb", "--emit=metadata", "-D", "warnings",
                "-o", os.path.join(place, "libthrumcomb.rmeta"),
                os.path.join(INCLUDE, "thrumcomb.rs"))


if __name__ == "__main__":
    unittest.main()
