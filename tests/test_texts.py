"""The built reader and writer give the answers of replay.py, rooms included."""

import collections
import random
import unittest

import cases
import driven
import replay

COUNT = 2_400


def case_read(answer):
    """The case that an accepting reader's answer holds."""
    procs, policy, end, tasks, releases = answer.values
    task_room, release_room = answer.rooms
    return cases.Case(procs, policy, task_room[:3 * tasks], end,
                      release_room[:2 * releases])


def rewritten(text):
    """The text with its policy line, put in where it was absent, and without its returns."""
    bare = cases.without_returns(text)
    first, rest = bare.split(b"\n", 1)
    if rest.startswith(b"policy\t"):
        return bare
    return first + b"\npolicy\tedf\n" + rest


def text_written(answer):
    return bytes(answer.rooms[0][:answer.values[0]])


def reader_rooms(rng):
    return (cases.some_room(rng, replay.READER_TASK_ROOM),
            cases.some_room(rng, replay.READER_RELEASE_ROOM))


class Texts(unittest.TestCase):

    def test_random_texts(self):
        drawn = list(cases.texts("built", COUNT))
        calls = [("read_case", (text.data, text.task_room, text.release_room))
                 for text in drawn]
        found = driven.hold(self, calls)
        seen = driven.tally(calls, found)
        driven.print_tally("random texts:", seen)
        kinds = collections.Counter(text.kind for text in drawn)
        print("  by kind: " + ", ".join(f"{kind} {count}"
                                        for kind, count in kinds.items()))
        self.assertEqual(set(seen["read_case"]), {*range(14), 16})

    def test_texts_read_and_written(self):
        """Writing what was read gives the text with its policy line and without its returns."""
        rng = random.Random("read and written")
        texts = [cases.text_of(case, with_policy=rng.random() < 0.5)
                 for case in cases.legal_cases("texts", 400)]
        texts = [cases.with_returns(rng, text) if rng.random() < 0.5 else text for text in texts]
        reads = [("read_case", (text, *reader_rooms(rng))) for text in texts]
        calls = []
        for text, answer in zip(texts, driven.hold(self, reads)):
            length = len(rewritten(text))
            case = case_read(answer)
            for room in (length, length + rng.choice([1, 30]), length - 1):
                calls.append(("write_case",
                              (*case, cases.some_bytes(rng, room))))
        found = driven.hold(self, calls)
        driven.print_tally("what was read, written:",
                           driven.tally(calls, found))
        for text, whole, longer, short in zip(texts, *(found[k::3]
                                                       for k in range(3))):
            self.assertEqual(text_written(whole), rewritten(text))
            self.assertEqual(text_written(longer), rewritten(text))
            self.assertEqual((short.number, short.values), (13, [0]))

    def test_cases_written_and_read(self):
        """Reading what the writer wrote gives the same numbers."""
        rng = random.Random("written and read")
        legal = list(cases.legal_cases("built", 300))
        legal += [cases.full_case(rng), cases.longest_text_case()]
        writes = [("write_case",
                   (*case, cases.some_bytes(rng, len(cases.text_of(case)))))
                  for case in legal]
        texts = [text_written(answer) for answer in driven.hold(self, writes)]
        print(f"longest text written: {max(map(len, texts))} bytes")
        reads = [("read_case", (text, *reader_rooms(rng))) for text in texts]
        for case, answer in zip(legal, driven.hold(self, reads)):
            self.assertEqual(answer.number, 0)
            self.assertEqual(case_read(answer), case)

    def test_every_cut(self):
        """A text cut at each of its bytes, without returns and with them."""
        case = cases.Case(2, 1, [10, 1, 4, 10, 1, 1, 10, 5, 5], 10,
                          [0, 1, 0, 2, 0, 3])
        bare = cases.text_of(case)
        rng = random.Random("every cut")
        rooms = reader_rooms(rng)
        for text in (bare, bare.replace(b"\n", b"\r\n")):
            driven.hold(self, [("read_case", (text[:at], *rooms))
                               for at in range(len(text) + 1)])

    def test_each_task_left_out(self):
        """32 tasks, all of them released, and then all but one."""
        case = cases.Case(2, 1, [9, 1, 9] * 32, 9,
                          cases.flat((0, task) for task in range(1, 33)))
        lines = cases.lines_of(case)
        rooms = reader_rooms(random.Random("left out"))
        calls = [("read_case", (cases.joined(lines), *rooms))]
        calls += [("read_case", (cases.joined(lines[:at] + lines[at + 1:]), *rooms))
                  for at in range(len(lines) - 32, len(lines))]
        found = driven.hold(self, calls)
        self.assertEqual([(answer.number, answer.values) for answer in found],
                         [(0, [2, 1, 9, 32, 32])]
                         + [(16, [task]) for task in range(1, 33)])

    def test_every_byte_in_each_place(self):
        """Each of 256 bytes put for each byte of a short text, of which some lines have a return."""
        text = b"procs\t1\npolicy\tedf\r\ntask\t5\t1\t5\nend\t9\r\nrelease\t0\t1\r\n"
        rooms = reader_rooms(random.Random("every byte"))
        calls = [("read_case",
                  (text[:at] + bytes([byte]) + text[at + 1:], *rooms))
                 for at in range(len(text)) for byte in range(256)]
        found = driven.hold(self, calls)
        driven.print_tally("every byte in each place:",
                           driven.tally(calls, found))

    def test_lengths_about_the_most(self):
        """59,999 to 60,001 bytes: in good form, cut, and of one byte alone."""
        rooms = reader_rooms(random.Random("lengths"))
        head = cases.joined([b"procs\t1", b"task\t1\t1\t1", b"end\t100000"])
        calls = []
        for length in (59_999, 60_000, 60_001):
            good = head + cases.release_lines(length - len(head))
            self.assertEqual(len(good), length)
            returned = head + cases.release_lines(length - len(head), b"\r\n")
            for text in (good, returned, (head + good)[:length], b"\n" * length, b"\r" * length,
                         b"\0" * length, head + b"1" * (length - len(head))):
                calls.append(("read_case", (text, *rooms)))
        found = driven.hold(self, calls)
        for way in (0, 1):
            self.assertEqual([answer.number for answer in found[way::7]], [12, 12, 1])


if __name__ == "__main__":
    unittest.main()
