"""Texts converted to say their policy (the call of request P6): what is promised of a conversion, by replay.py and through the archive.

And wrong converters that look right, each of which the inputs tell.
"""

import collections
import itertools
import unittest
import unittest.mock

import cases
import driven
import replay
import test_archive

COUNT = 500


def text_in(answer):
    """The text that an accepting converter put into its room."""
    return bytes(answer.rooms[0][:answer.values[0]])


def case_read(answer):
    """The case that an accepting reader's answer holds."""
    procs, policy, end, tasks, releases = answer.values
    task_room, release_room = answer.rooms
    return procs, policy, task_room[:3 * tasks], end, release_room[:2 * releases]


def reading(text):
    return "read_case", (text, list(range(replay.READER_TASK_ROOM)), list(range(replay.READER_RELEASE_ROOM)))


def meant(text):
    """The case that an accepted text means, by replay.py."""
    name, args = reading(text)
    return case_read(getattr(replay, name)(*args))


def fault_of(answer):
    """(0, 0), or the number and place of a refusal."""
    return answer.number, answer.values[0] if answer.number else 0


def says_a_policy(text):
    """A second reading of an accepted text: its second line alone can be a policy line."""
    return text.split(b"\n")[1].startswith(b"policy")


class Laws:
    """What is proved of the converter, tried over the answers that a kind of test gives to calls."""

    @classmethod
    def setUpClass(cls):
        cls.drawn = list(cases.conversions("laws", COUNT))
        longest = cases.text_of(cases.longest_text_case(), with_policy=False)
        for text in (longest, longest.replace(b"\n", b"\r\n")):
            cls.drawn.append(cases.Conversion("longest", text, [7] * replay.LONGEST_TEXT, 0, 0))

    def answers(self, calls):
        raise NotImplementedError

    def conversions(self):
        """Each text with its room, and what the converter answers."""
        calls = [("convert", (drawn.data, drawn.room)) for drawn in self.drawn]
        return list(zip(self.drawn, self.answers(calls)))

    def accepted(self):
        """Each text that is converted, and what it is converted to."""
        found = [(drawn.data, text_in(answer)) for drawn, answer in self.conversions() if answer.number == 0]
        self.assertGreater(len(found), COUNT // 6)
        return found

    def test_the_result_is_the_case_that_the_text_meant(self):
        found = self.accepted()
        reads = self.answers([reading(text) for text, _ in found])
        for (text, _), read, answer in zip(found, reads, self.answers([reading(result) for _, result in found])):
            self.assertEqual((read.number, answer.number), (0, 0), text)
            self.assertEqual(case_read(answer), case_read(read), text)
            self.assertEqual(case_read(answer), meant(text), text)
        changed = sum(text != result for text, result in found)
        self.assertEqual(changed, sum(not says_a_policy(text) for text, _ in found))
        self.assertGreater(min(changed, len(found) - changed), COUNT // 20)

    def test_converting_the_result_changes_nothing(self):
        found = self.accepted()
        for spare in (0, 13):
            calls = [("convert", (result, [7] * (len(result) + spare))) for _, result in found]
            for (_, result), answer in zip(found, self.answers(calls)):
                self.assertEqual((answer.number, answer.values), (0, [len(result)]), result)
                self.assertEqual(answer.rooms, ([*result, *[7] * spare],))

    def test_refused_exactly_when_the_text_is_or_by_its_size(self):
        found = self.conversions()
        reads = self.answers([reading(drawn.data) for drawn, _ in found])
        seen = collections.Counter()
        for (drawn, answer), read in zip(found, reads):
            fault = fault_of(read)
            if fault == (0, 0):
                length = len(drawn.data) + (0 if says_a_policy(drawn.data) else len(b"policy\tedf\n"))
                fault = (1, 0) if length > 60_000 else (13, 0) if length > len(drawn.room) else (0, 0)
            self.assertEqual(fault_of(answer), fault, drawn)
            if answer.number != 0:
                self.assertEqual(answer.rooms, (drawn.room,), drawn)
            seen[answer.number] += 1
        self.assertEqual(set(seen), set(cases.CONVERT_AIMS))

    def test_no_other_byte_changes(self):
        for drawn, answer in self.conversions():
            if answer.number != 0:
                continue
            lines = text_in(answer).split(b"\n")
            if not says_a_policy(drawn.data):
                self.assertEqual(lines.pop(1), b"policy\tedf")
            self.assertEqual(b"\n".join(lines), drawn.data)
            length = answer.values[0]
            self.assertEqual(answer.rooms[0][length:], drawn.room[length:])


class ByTheReplay(Laws, unittest.TestCase):

    def answers(self, calls):
        return [getattr(replay, name)(*args) for name, args in calls]


class ThroughTheArchive(Laws, unittest.TestCase):

    def answers(self, calls):
        return driven.hold(self, calls)


SHORT = b"procs\t1\ntask\t5\t1\t5\nend\t9\nrelease\t0\t1\n"
SHORT_SAID = b"procs\t1\npolicy\tedf-cf\ntask\t5\t1\t5\nend\t9\nrelease\t0\t1\n"


# Set B with end 10 and with returns, and what it is converted to.
SET_B = (b"procs\t2\r\ntask\t15\t5\t9\r\ntask\t15\t5\t9\r\ntask\t15\t6\t10\r\nend\t10\r\n"
         b"release\t0\t1\r\nrelease\t0\t2\r\nrelease\t0\t3\r\n")
SET_B_SAID = (b"procs\t2\r\npolicy\tedf\ntask\t15\t5\t9\r\ntask\t15\t5\t9\r\ntask\t15\t6\t10\r\nend\t10\r\n"
              b"release\t0\t1\r\nrelease\t0\t2\r\nrelease\t0\t3\r\n")

# Set A with end 10, and what it is converted to.
SET_A = (b"procs\t2\ntask\t10\t1\t4\ntask\t10\t1\t1\ntask\t10\t5\t5\nend\t10\n"
         b"release\t0\t1\nrelease\t0\t2\nrelease\t0\t3\n")
SET_A_SAID = (b"procs\t2\npolicy\tedf\ntask\t10\t1\t4\ntask\t10\t1\t1\ntask\t10\t5\t5\nend\t10\n"
              b"release\t0\t1\nrelease\t0\t2\nrelease\t0\t3\n")

# Each with the whole answer, into a room that starts as nines.
WORKED = [
    (SET_A, b"9" * 102, replay.accepted([98], SET_A_SAID + b"9999")),
    (SET_B, b"9" * 111, replay.accepted([107], SET_B_SAID + b"9999")),
    (SET_B_SAID, b"9" * 111, replay.accepted([107], SET_B_SAID + b"9999")),
    (SET_B, b"9" * 106, replay.refused((13, 0), b"9" * 106)),
]


class Worked(unittest.TestCase):

    def test_the_worked_sets_converted(self):
        driven.hold_to(self, [("convert", (text, room)) for text, room, _ in WORKED], [answer for _, _, answer in WORKED])

    def test_the_replay_says_the_same(self):
        for text, room, answer in WORKED:
            self.assertEqual(replay.convert(text, room), answer)


class OfOneText(unittest.TestCase):
    """A short text in every way through the archive, the answers known beforehand."""

    def test_every_return(self):
        calls, answers = [], []
        for text in (SHORT, SHORT_SAID):
            for way in range(2 ** text.count(b"\n")):
                # Bit k of the way: whether line k has a return.
                given = cases.returned_where(text, lambda at: way >> at & 1)
                at = given.index(b"\n") + 1
                right = given if text is SHORT_SAID else given[:at] + b"policy\tedf\n" + given[at:]
                room = bytes(range(len(right) + 3))
                calls.append(("convert", (given, room)))
                answers.append(replay.accepted([len(right)], right + room[-3:]))
        self.assertEqual(len(calls), 16 + 32)
        driven.hold_to(self, calls, answers)

    def test_every_room(self):
        for text, right in (SHORT, SHORT.replace(b"task", b"policy\tedf\ntask")), (SHORT_SAID, SHORT_SAID):
            rooms = [bytes(range(length)) for length in range(len(right) + 12)]
            driven.hold_to(self, [("convert", (text, room)) for room in rooms],
                           [replay.refused((13, 0), room) if len(room) < len(right)
                            else replay.accepted([len(right)], right + room[len(right):]) for room in rooms])

    def test_every_cut(self):
        """Refused as the reader refuses it, but where all of the text is there."""
        for text in (SHORT, SHORT_SAID.replace(b"\n", b"\r\n")):
            room = bytes(range(100))
            calls = [("convert", (text[:at], room)) for at in range(len(text) + 1)]
            found = driven.hold(self, calls)
            self.assertEqual([answer.number == 0 for answer in found], [False] * len(text) + [True])
            reads = driven.hold(self, [reading(text[:at]) for at in range(len(text))])
            self.assertEqual([fault_of(answer) for answer in found[:-1]], [fault_of(answer) for answer in reads])


# ---------------------------------------------------------------------------
# The inputs themselves


def of_what_sort(drawn):
    """Whether an accepted text says its policy, and which of its lines have a return: procs, others."""
    first, *others = drawn.data.split(b"\n")[:-1]
    return says_a_policy(drawn.data), first.endswith(b"\r"), any(line.endswith(b"\r") for line in others)


class Drawn(unittest.TestCase):

    def test_each_aim_is_met(self):
        kinds, met = set(), set()
        for drawn in cases.conversions("test", 2_000):
            answer = replay.convert(drawn.data, drawn.room)
            if drawn.number is not None:
                self.assertEqual(fault_of(answer), (drawn.number, drawn.place), drawn)
                met.add(drawn.number)
            kinds.add(drawn.kind)
        self.assertEqual(met, set(cases.CONVERT_AIMS))
        self.assertEqual(kinds, set(cases.CONVERT_ROUND))

    def test_every_sort_of_text_in_every_sort_of_room(self):
        seen = collections.Counter()
        for drawn in cases.conversions("sorts", 4_000):
            if drawn.number not in (0, 13):
                continue
            over = len(drawn.room) - len(drawn.data) - (0 if says_a_policy(drawn.data) else 11)
            room = ("none" if not drawn.room else "short" if over < -1 else "one short" if over == -1
                    else "exact" if over == 0 else "longer")
            self.assertEqual(drawn.number, 0 if over >= 0 else 13)
            seen[(room, *of_what_sort(drawn))] += 1
        rooms = ("none", "short", "one short", "exact", "longer")
        for sort in itertools.product(rooms, *[(False, True)] * 3):
            self.assertGreater(seen[sort], 2, sort)

    def test_no_text_that_is_accepted_comes_near_the_most_bytes(self):
        """So the converter's own 1 is met by no text: what it adds cannot pass 60,000 bytes."""
        longest = (b"procs\t32\r\npolicy\tedf-cf\r\n" + b"task\t10000\t10000\t10000\r\n" * replay.MOST_TASKS
                   + b"end\t100000\r\n" + b"release\t99999\t32\r\n" * replay.MOST_RELEASES)
        self.assertLess(len(longest) + cases.ADDED, replay.LONGEST_TEXT)
        for drawn in cases.conversions("lengths", 1_000):
            if replay.convert(drawn.data, [0] * replay.LONGEST_TEXT).number == 0:
                self.assertLessEqual(len(drawn.data), len(longest))


# ---------------------------------------------------------------------------
# Wrong converters that look right: what each makes of an accepted text


def put_in(text, line):
    """The text with a line put in behind its procs line, where it has no policy line."""
    if says_a_policy(text):
        return text
    first, rest = text.split(b"\n", 1)
    return first + b"\n" + line + rest


def says_the_other_policy(text):
    return put_in(text, b"policy\tedf-cf\n")


def line_ends_as_the_others(text):
    return put_in(text, b"policy\tedf\r\n" if b"\r\n" in text else b"policy\tedf\n")


def line_always_returned(text):
    return put_in(text, b"policy\tedf\r\n")


def return_of_the_procs_line_moved(text):
    if says_a_policy(text):
        return text
    first, rest = text.split(b"\n", 1)
    end = b"\r\n" if first.endswith(b"\r") else b"\n"
    return first.removesuffix(b"\r") + b"\npolicy\tedf" + end + rest


def returns_dropped(text):
    return put_in(text, b"policy\tedf\n").replace(b"\r\n", b"\n")


def line_put_before_the_procs_line(text):
    return text if says_a_policy(text) else b"policy\tedf\n" + text


def line_put_in_though_there_is_one(text):
    first, rest = text.split(b"\n", 1)
    return first + b"\npolicy\tedf\n" + rest


def edf_cf_turned_to_edf(text):
    return put_in(text, b"policy\tedf\n").replace(b"edf-cf", b"edf")


def nothing_put_in(text):
    return text


def returned_policy_line_overlooked(text):
    """Where its policy line has a return, the text is taken for one without."""
    second = text.split(b"\n")[1]
    return line_put_in_though_there_is_one(text) if second.endswith(b"\r") else put_in(text, b"policy\tedf\n")


def written_anew(text):
    """The case that the text means, in its canonical text."""
    return replay.case_text(*meant(text))


WRONG_RESULTS = [says_the_other_policy, line_ends_as_the_others, line_always_returned,
                 return_of_the_procs_line_moved, returns_dropped, line_put_before_the_procs_line,
                 line_put_in_though_there_is_one, edf_cf_turned_to_edf, nothing_put_in,
                 returned_policy_line_overlooked, written_anew]


# Wrong converters whose text is right: what each answers, given the right answer.


def room_first(text, room, right):
    short = len(room) < len(text) + cases.ADDED and right.number not in (0, 13)
    return replay.refused((13, 0), room) if short else right


def room_for_the_line_always(text, room, right):
    short = right.number == 0 and len(room) < len(text) + cases.ADDED
    return replay.refused((13, 0), room) if short else right


def room_for_any_result(text, room, right):
    return replay.refused((13, 0), room) if right.number == 0 and len(room) < 60_000 else right


def whole_room_needed_to_be_longer(text, room, right):
    return replay.refused((13, 0), room) if right.number == 0 and right.values == [len(room)] else right


def cut_where_it_does_not_fit(text, room, right):
    if right.number != 13:
        return right
    return replay.accepted([len(room)], replay.converted(bytes(text))[:len(room)])


def length_of_the_old_text(text, room, right):
    return right._replace(values=[len(text)]) if right.number == 0 else right


def rest_cleared(text, room, right):
    if right.number != 0:
        return right
    length = right.values[0]
    return right._replace(rooms=(right.rooms[0][:length] + [0] * (len(room) - length),))


def front_written_before_a_refusal(text, room, right):
    if right.number == 0:
        return right
    return right._replace(rooms=(replay.put_at_front(list(text)[:len(room)], room),))


def place_of_the_room_is_the_length(text, room, right):
    return right._replace(values=[len(room)]) if right.number == 13 else right


WRONG_ANSWERS = [room_first, room_for_the_line_always, room_for_any_result, whole_room_needed_to_be_longer,
                 cut_where_it_does_not_fit, length_of_the_old_text, rest_cleared, front_written_before_a_refusal,
                 place_of_the_room_is_the_length]


class WrongConverters(unittest.TestCase):

    def assertTold(self, asked, least):
        """Each wrong converter answers so many of the (text, room) otherwise; gives how many."""
        right = [replay.convert(*one) for one in asked]
        told = {}
        for wrong in WRONG_RESULTS:
            with unittest.mock.patch.object(replay, "converted", wrong):
                told[wrong.__name__] = sum(replay.convert(*one) != answer for one, answer in zip(asked, right))
        for wrong in WRONG_ANSWERS:
            told[wrong.__name__] = sum(wrong(*one, answer) != answer for one, answer in zip(asked, right))
        for name, count in told.items():
            self.assertGreaterEqual(count, least, name)
        return told

    def test_each_is_told_by_hand(self):
        self.assertTold([args for _, (name, args), _ in test_archive.BY_HAND if name == "convert"], 1)

    def test_each_is_told_by_the_conversions(self):
        """By those that the archive is held to."""
        asked = [(drawn.data, drawn.room) for drawn in cases.conversions("archive", 800)]
        told = self.assertTold(asked, 5)
        print(f"wrong converters, each told by so many of {len(asked)} conversions:", told)


if __name__ == "__main__":
    unittest.main()
