"""The built calls on numbers give the answers of replay.py, rooms included."""

import random
import unittest

import cases
import driven

# Each call with each of its aims in turn: 3,000 give over 2,000 calls of the
# counts, the replay and the running set, and nearly 900 of the writer.
COUNT = 3_000


def numbers_in(args):
    for arg in args:
        if isinstance(arg, int):
            yield arg
        else:
            yield from arg


class Calls(unittest.TestCase):

    def test_random_calls(self):
        calls = [(call.name, call.args) for call in cases.calls("built", COUNT)]
        found = driven.hold(self, calls)
        seen = driven.tally(calls, found)
        driven.print_tally("random calls on numbers:", seen)
        for name, aims in cases.AIMS.items():
            self.assertEqual(set(seen[name]), set(aims), name)
        on_numbers = [name for name, _ in calls if name != "write_case"]
        self.assertGreaterEqual(len(on_numbers), 2_000)
        largest = sum(1 for name, args in calls
                      if name != "write_case"
                      and cases.MOST in numbers_in(args))
        print(f"  {largest} of them hold the number {cases.MOST}")
        self.assertGreater(largest, 100)

    def test_legal_cases(self):
        """Cases that no call refuses, under both policies."""
        rng = random.Random("legal cases")
        calls = []
        for drawn in cases.legal_cases("built", 700):
            room = cases.some_room(rng, 3 * len(drawn.trace) // 2 + 5)
            calls.append(("counts", (drawn.procs, drawn.table,
                                     cases.some_room(rng, 40))))
            for policy in (0, 1):
                case = drawn._replace(policy=policy)
                calls.append(("replay", (*case, room)))
                calls.append(("running_set", (*case, rng.randrange(case.end))))
        found = driven.hold(self, calls)
        self.assertEqual({answer.number for answer in found}, {0})
        driven.print_tally("legal cases:", driven.tally(calls, found))
        replays = [answer for (name, _), answer in zip(calls, found)
                   if name == "replay"]
        totals = [sum(column)
                  for column in zip(*(answer.values for answer in replays))]
        apart = sum(edf.rooms != cf.rooms
                    for edf, cf in zip(replays[::2], replays[1::2]))
        print(f"  met, missed, open: {totals}; the policies differ in "
              f"{apart} of {len(replays) // 2} cases")
        self.assertGreater(min(totals), 100)
        self.assertGreater(apart, 100)

    def test_every_slot(self):
        """The running set of each slot of some cases."""
        calls = []
        for case in cases.legal_cases("every slot", 40):
            if case.end <= 60:
                calls += [("running_set", (*case, slot))
                          for slot in range(case.end + 1)]
        found = driven.hold(self, calls)
        driven.print_tally("every slot:", driven.tally(calls, found))

    def test_numbers_without_any_rule(self):
        rng = random.Random("wild calls")
        calls = []
        for _ in range(300):
            case = (cases.wild(rng), cases.wild(rng), cases.wild_table(rng),
                    cases.wild(rng), cases.wild_trace(rng))
            room = cases.some_room(rng, rng.choice([0, 1, 5, 33, 200]))
            calls += [("counts", (case[0], case[2], room)),
                      ("replay", (*case, room)),
                      ("running_set", (*case, cases.wild(rng))),
                      ("write_case", (*case, cases.some_bytes(rng, 40)))]
        found = driven.hold(self, calls)
        driven.print_tally("numbers without any rule:",
                           driven.tally(calls, found))

    def test_large_cases(self):
        calls = []
        for case in cases.large_cases("built", 8):
            room = list(range(3 * len(case.trace) // 2))
            calls += [("counts", (case.procs, case.table, [0] * 32)),
                      ("replay", (*case, room)),
                      ("running_set", (*case, case.end - 1))]
        driven.hold(self, calls)

    def test_full_size(self):
        """32 tasks, 2,000 releases, end 100,000, under both policies."""
        rng = random.Random("full size")
        calls = []
        for policy in (0, 1):
            case = cases.full_case(rng, policy)
            self.assertEqual((len(case.table), len(case.trace), case.end),
                             (96, 4_000, 100_000))
            calls += [("replay", (*case, [7] * 6_000)),
                      ("replay", (*case, [7] * 5_999)),
                      ("running_set", (*case, 99_999)),
                      ("running_set", (*case, 100_000))]
        found = driven.hold(self, calls)
        self.assertEqual([answer.number for answer in found],
                         [0, 13, 0, 15] * 2)

    def test_full_size_without_one_task(self):
        """32 tasks and nearly 2,000 releases, none of one of the tasks."""
        whole = cases.full_case(random.Random("full size"), 1)
        absent = [1, 2, 16, 31, 32]
        calls = []
        for task in absent:
            rest = cases.releases_but_of(whole, [task])
            case = whole._replace(trace=cases.flat(rest))
            calls += [("replay", (*case, [7] * 6_000)),
                      ("replay", (*case, [])),
                      ("running_set", (*case, 0)),
                      ("running_set", (*case, 100_000)),
                      ("write_case", (*case, [7] * 60_000)),
                      ("write_case", (*case, []))]
        found = driven.hold(self, calls)
        self.assertEqual([(answer.number, answer.values) for answer in found],
                         [(16, [task]) for task in absent for _ in range(6)])

    def test_each_task_left_out(self):
        """32 tasks, all of them released in the only slot, and then all but one."""
        releases = [(0, task) for task in range(1, 33)]
        kept = [releases] + [releases[:k] + releases[k + 1:] for k in range(32)]
        found = driven.hold(self, [
            (name, (32, 1, [5, 1, 5] * 32, 1, cases.flat(some), last))
            for name, last in [("replay", [7] * 96), ("running_set", 0)]
            for some in kept])
        refused = [(16, [task]) for task in range(1, 33)]
        self.assertEqual([(answer.number, answer.values) for answer in found],
                         [(0, [32, 0, 0]), *refused, (0, [2**32 - 1]), *refused])


if __name__ == "__main__":
    unittest.main()
