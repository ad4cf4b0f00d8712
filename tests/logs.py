"""Slot logs for requests P2 and P4: good ones, and ones with each kind of damage.

  logs(seed, count)   logs of each kind in turn, each with its case and the
                      answer that it aims at where that is known
  BY_HAND             logs worked by hand, each with its answer

An aim is a pair as in cases.py: (0, 0) for a log that is to be accepted.  It
is known by how the log was made, not asked of replay.check_log.  Where one
line decides, those after it are often spoiled, so that a check that reads on
shows itself.
"""

import random
from collections import namedtuple

import cases
import replay

# kind names the way the log was made; number and place are None where the
# damage is blind and the answer is not known beforehand.
Log = namedtuple("Log", "kind case data number place")

# One slot as it was played: its time, the tasks that ran, and the (demoted,
# deadline) of each present task.
Slot = namedtuple("Slot", "time ran present")


# ---------------------------------------------------------------------------
# Cases and runs


def level_deadlines(rng, tasks, longest):
    """Nearly equal, so that ties are many."""
    return [longest - rng.choice([0, 0, 0, 1, 1, 2]) for _ in range(tasks)]


def spread_deadlines(rng, tasks, longest):
    """Two long ones and any others: the short ones leave the long ones a free count."""
    return [longest, longest - rng.choice([0, 1, 1, 2])] + [rng.randint(1, longest) for _ in range(tasks - 2)]


def dense_execution(rng, free, D, largest):
    if free > 0:
        return free + rng.choice([-1, 0, 0, 0, 1, 1, 2])
    return rng.choice([D, D, D, D - 1, (D + 1) // 2, rng.randint(1, D)])


def dense_table(rng, procs):
    tasks = procs + rng.choice([1, 1, 1, 2, 3])
    longest = rng.randint(3, 9)
    deadlines = rng.choice([level_deadlines, spread_deadlines, spread_deadlines])(rng, tasks, longest)
    rng.shuffle(deadlines)
    shape = [(rng.choice([D, longest, longest, longest + rng.randint(0, 3)]), D) for D in deadlines]
    return cases.table_of(rng, procs, shape, dense_execution)


def dense_case(rng):
    """Few tasks and fewer processors, each released as soon as it may be: ties, demotions and waiting jobs."""
    procs = rng.choice([1, 2, 2, 2, 3, 3, 4])
    table = dense_table(rng, procs)
    end = rng.choice([1, *(rng.randint(2, 14) for _ in range(9))])
    releases = []
    for number, task in enumerate(replay.tasks_of(table), start=1):
        first = min(rng.choice([0, 0, 0, 0, 1, 2]), end - 1)
        releases += [(time, number) for time in range(first, end, task.T)]
    return cases.Case(procs, rng.choice([0, 1, 1, 1]), table, end, cases.flat(sorted(releases)))


def some_case(rng):
    """Mostly dense; else of the small sizes of cases.py, or one of its demoted jobs with rivals."""
    def small_case(rng):
        return cases.legal_case(rng, rng.choice(["tiny", "small"]))

    make = rng.choices([dense_case, small_case, cases.rivals_case], [8, 1, 1])[0]
    return make(rng)


class Vendor(replay.Run):
    """A kernel that breaks each tie as it happens to."""

    def __init__(self, rng, case):
        super().__init__(*case)
        self.rng = rng

    def place_in_queue(self, job):
        return job.demoted, job.deadline, self.rng.random()


class Careless(Vendor):
    """A kernel that now and then runs any of its jobs."""

    def place_in_queue(self, job):
        return self.rng.random() if self.careless else super().place_in_queue(job)

    def run_first(self, n, t):
        self.careless = self.rng.random() < 0.3
        return super().run_first(n, t)


class HigherFirst(replay.Run):
    """A kernel that gives each tie to the higher task number."""

    def place_in_queue(self, job):
        return job.demoted, job.deadline, -job.task


def played_slot(run, t):
    n = run.begin_slot(t)
    present = {job.task: (job.demoted, job.deadline) for job in run.present}
    return Slot(t, sorted(run.run_first(n, t)), present)


def played(run):
    """Each slot of a run from its start."""
    return [played_slot(run, t) for t in range(run.end)]


def vendor_slots(rng, case):
    return played(Vendor(rng, case))


def lines_of(slots):
    """The lines of slots, without their newlines."""
    return [replay.slot_line(slot.time, slot.ran)[:-1] for slot in slots]


def is_first(procs, slot):
    """Whether the slot ran the first jobs of some queue without ties: its kinds and deadlines are the lowest there are.

    It is the rule of request P2, said otherwise than replay.py says it.
    """
    lowest = sorted(slot.present.values())[:procs]
    return sorted(slot.present[task] for task in slot.ran) == lowest


# ---------------------------------------------------------------------------
# Logs that are to be accepted


def own(rng):
    case = some_case(rng)
    return case, replay.own_log(*case), 0, 0


def ties_at_random(rng):
    case = some_case(rng)
    return case, replay.log_of(Vendor(rng, case)), 0, 0


def ties_to_the_higher(rng):
    case = some_case(rng)
    return case, replay.log_of(HigherFirst(*case)), 0, 0


# ---------------------------------------------------------------------------
# Lines that are refused as 17.  Each function takes a good line, which names
# at least its time, and gives one that is badly formed or names wrongly.


def with_field(rng, line, field):
    """The line with one of its fields, the time or a task, put otherwise."""
    word, *fields = line.split(b"\t")
    at = rng.randrange(len(fields))
    fields[at] = field(fields[at])
    return b"\t".join([word, *fields])


def other_word(rng, line):
    word = rng.choice([b"", b"Slot", b"SLOT", b"slo", b"slots", b"slot ", b" slot", b"task", b"running", b"\xef\xbb\xbfslot", b"slot\0"])
    return word + line[len(b"slot"):]


def odd_end(rng, line):
    return line + rng.choice([b"\t", b"\r\r", b"\r0", b"\r ", b"\r\t", b" ", b"\0", b"\t\t", b"\t ", b"\t0x", b"\t\r", b",", b"\v", b"-"])


def odd_gap(rng, line):
    at = rng.choice([i for i, byte in enumerate(line) if byte == 9])
    # Without any gap two tasks would be another one.
    gaps = [b"\t\t", b" ", b"\t ", b" \t", b"\r\t", b"\t\r", b"\0", b"\v", b"" if at == len(b"slot") else b"\t\t\t"]
    return line[:at] + rng.choice(gaps) + line[at + 1:]


def odd_number(rng, line):
    odd = rng.choice([b"", b"00", b"01", b"-1", b"+1", b"1.0", b"1e1", b"0x1", b"a", b"/", b":", b"\xb2", b"1000000000", b"4294967296",
                      b"0000000001", b"9" * 10, b"9" * 40])
    return with_field(rng, line, lambda field: rng.choice([odd, odd, odd, b"0" + field, b" " + field, field + b" "]))


def cut_short(rng, line):
    return rng.choice([b"", b"\r", b"\t", b"slot", b"slot\t", b"\r" + line, line[:rng.randrange(len(b"slot\t") + 1)]])


def names_of(line):
    time, tasks = replay.parse_slot(line)
    return time, tasks


def named(time, tasks):
    """A line that names the tasks as they stand."""
    return "\t".join(map(str, ["slot", time, *tasks])).encode()


def wrong_time(rng, line):
    time, tasks = names_of(line)
    other = rng.choice([time + 1, time + 1, max(time - 1, 0), 0, 1, time + 256, 999_999_999, rng.randrange(20)])
    return named(other if other != time else time + 2, tasks)


def task_twice(rng, line):
    time, tasks = names_of(line)
    at = rng.randrange(len(tasks)) if tasks else 0
    again = tasks[at:at + 1] or [rng.choice([0, 1, 2, 33])] * 2
    return named(time, tasks[:at] + again + tasks[at:])


def not_rising(rng, line):
    time, tasks = names_of(line)
    if len(tasks) < 2:
        tasks = sorted({*tasks, rng.choice([0, 33, 999_999_999]), rng.randint(1, 6)})
    if len(tasks) < 2:
        tasks = [0, 1]
    at = rng.randrange(len(tasks) - 1)
    tasks[at:at + 2] = reversed(tasks[at:at + 2])
    return named(time, tasks)


LINE_BREAKERS = {
    "another word": other_word,
    "something behind a line": odd_end,
    "an odd gap": odd_gap,
    "an odd number": odd_number,
    "a line cut short": cut_short,
    "a wrong time": wrong_time,
    "a task twice": task_twice,
    "not rising": not_rising,
}


# ---------------------------------------------------------------------------
# Sets that are refused as 18.  Each function takes a slot that was played and
# gives other tasks for it, or None where there are none.


def ran_and_waited(slot):
    return slot.ran, [task for task in slot.present if task not in slot.ran]


def one_dropped(rng, case, slot):
    if not slot.ran:
        return None
    gone = rng.choice(slot.ran)
    return [task for task in slot.ran if task != gone]


def none_at_all(rng, case, slot):
    return [] if slot.ran else None


def one_too_many(rng, case, slot):
    _, waited = ran_and_waited(slot)
    return slot.ran + [rng.choice(waited)] if waited else None


def absent_task(rng, case, slot):
    """A number that has no present job: of the table, beyond it, or no task's."""
    tasks = len(case.table) // 3
    idle = [task for task in range(1, tasks + 1) if task not in slot.present]
    others = [0, tasks + 1, 32, 33, 64, 999_999_999, rng.randint(tasks + 1, 40)]
    others = [number for number in others if number not in slot.present]
    return rng.choice(idle if idle and rng.random() < 0.5 else others)


def one_absent_more(rng, case, slot):
    return slot.ran + [absent_task(rng, case, slot)]


def one_absent_instead(rng, case, slot):
    rest = one_dropped(rng, case, slot)
    return None if rest is None else rest + [absent_task(rng, case, slot)]


def exchanges(slot):
    """The (ran, waited) pairs of which the one that ran comes strictly before the one that waited."""
    ran, waited = ran_and_waited(slot)
    return [(a, b) for a in ran for b in waited if slot.present[a] < slot.present[b]]


def exchanged(rng, slot, pairs):
    if not pairs:
        return None
    out, into = rng.choice(pairs)
    return [task for task in slot.ran if task != out] + [into]


def a_later_one(rng, case, slot):
    return exchanged(rng, slot, exchanges(slot))


def a_demoted_one(rng, case, slot):
    """A demoted one before a normal one, whose deadline may well be later."""
    return exchanged(rng, slot, [(a, b) for a, b in exchanges(slot) if slot.present[a][0] != slot.present[b][0]])


def a_later_demoted_one(rng, case, slot):
    return exchanged(rng, slot, [(a, b) for a, b in exchanges(slot) if slot.present[a][0]])


SET_BREAKERS = {
    "one task dropped": one_dropped,
    "nobody runs": none_at_all,
    "one too many": one_too_many,
    "one absent more": one_absent_more,
    "one absent instead": one_absent_instead,
    "a later one": a_later_one,
    "a demoted one": a_demoted_one,
    "a later demoted one": a_later_demoted_one,
}


# ---------------------------------------------------------------------------
# Logs with one line at fault


def spoiled(rng, lines, place):
    """The lines with those after the place perhaps spoiled, left out or more than there were."""
    rest = lines[place:]
    way = rng.randrange(6)
    if way == 0:
        rest = [rng.choice([line, line + b"\t", b"slot\t0", b""]) for line in rest]
    if way == 1:
        rest = []
    if way == 2:
        rest = rest + [b"slot\t%d" % (len(lines) + at) for at in range(3)]
    return lines[:place] + rest


def with_bad_line(rng, breaker):
    """One line of a good log broken, or one behind its end, where it is read for its form alone."""
    case = some_case(rng)
    lines = lines_of(vendor_slots(rng, case))
    lines += [b"slot\t%d\t%d" % (case.end + at, rng.randrange(40)) for at in range(rng.choice([0, 0, 0, 1, 3]))]
    place = rng.randint(1, len(lines))
    lines[place - 1] = breaker(rng, lines[place - 1])
    return case, cases.joined(spoiled(rng, lines, place)), 17, place


def without_newline(rng):
    case = some_case(rng)
    data = replay.log_of(Vendor(rng, case))
    places = [at for at, byte in enumerate(data) if byte == 10]
    place = rng.randint(1, len(places))
    cut = places[place - 1]
    if rng.random() < 0.3:
        cut = rng.randint(places[place - 2] + 2 if place > 1 else 1, cut)
    # A return is no newline, behind the line and alone.
    way = rng.randrange(6)
    if way == 0:
        return case, data + b"\r", 17, len(places) + 1
    return case, data[:cut] + (b"\r" if way == 1 else b""), 17, place


def broken_set(rng, breaker):
    """A case, its slots and the tasks of one of them exchanged for others; the slot's index."""
    while True:
        case = dense_case(rng)
        slots = vendor_slots(rng, case)
        at = rng.randrange(len(slots))
        for index in (*range(at, len(slots)), *range(at)):
            tasks = breaker(rng, case, slots[index])
            if tasks is not None:
                return case, slots, index, sorted(tasks)


def with_broken_set(rng, breaker):
    case, slots, index, tasks = broken_set(rng, breaker)
    lines = lines_of(slots)
    lines[index] = named(index, tasks)
    return case, cases.joined(spoiled(rng, lines, index + 1)), 18, index + 1


def broken_both_ways(rng):
    """A line that is badly formed or names wrongly, and whose set breaks the rule as well."""
    case, slots, index, tasks = broken_set(rng, SET_BREAKERS[rng.choice(list(SET_BREAKERS))])
    lines = lines_of(slots)
    line = named(index, tasks)
    lines[index] = LINE_BREAKERS[rng.choice(list(LINE_BREAKERS))](rng, line)
    return case, cases.joined(spoiled(rng, lines, index + 1)), 17, index + 1


def broken_without_newline(rng):
    """The last line has no newline, and its set breaks the rule."""
    case, slots, index, tasks = broken_set(rng, SET_BREAKERS[rng.choice(list(SET_BREAKERS))])
    lines = lines_of(slots)
    return case, cases.joined(lines[:index]) + named(index, tasks), 17, index + 1


# ---------------------------------------------------------------------------
# Logs of another length


def any_set(rng):
    return sorted(rng.sample([0, 1, 2, 3, 4, 5, 6, 7, 31, 32, 33, 999_999_999], rng.randrange(6)))


def lines_missing(rng):
    case = some_case(rng)
    lines = lines_of(vendor_slots(rng, case))
    return case, cases.joined(lines[:rng.choice([0, 0, len(lines) - 1, rng.randrange(len(lines))])]), 19, 0


def lines_past_the_end(rng):
    """What they name does not matter, as long as it rises."""
    case = some_case(rng)
    lines = lines_of(vendor_slots(rng, case))
    for time in range(case.end, case.end + rng.choice([1, 1, 2, 5])):
        lines.append(named(time, any_set(rng)))
    return case, cases.joined(lines), 19, 0


def bad_line_past_the_end(rng):
    """The last of too many lines is refused before their number."""
    case, data, _, _ = lines_past_the_end(rng)
    lines = data.split(b"\n")[:-1]
    lines[-1] = LINE_BREAKERS[rng.choice(list(LINE_BREAKERS))](rng, lines[-1])
    return case, cases.joined(lines), 17, len(lines)


# ---------------------------------------------------------------------------
# Logs whose state parts from that of our own replay


def careless(rng):
    """Sets of the right number, now and then any of the present jobs; refused at the first that is not first."""
    case = dense_case(rng)
    slots = played(Careless(rng, case))
    wrong = [slot.time for slot in slots if not is_first(case.procs, slot)]
    number, place = (18, wrong[0] + 1) if wrong else (0, 0)
    return case, cases.joined(lines_of(slots)), number, place


def turned_back(rng):
    """Up to some slot a vendor's log, and then what our own replay runs, as if no tie had gone the other way."""
    while True:
        case = dense_case(rng)
        vendor = replay.log_of(Vendor(rng, case)).splitlines(keepends=True)
        ours = replay.own_log(*case).splitlines(keepends=True)
        apart = [at for at, lines in enumerate(zip(vendor, ours)) if lines[0] != lines[1]]
        if len(apart) > 1:
            cut = rng.randint(apart[0] + 1, apart[-1])
            return case, b"".join(vendor[:cut] + ours[cut:]), None, None


def of_the_other_policy(rng):
    """Our own log of a case that the policies play differently, taken for one of the other policy."""
    while True:
        case = dense_case(rng)
        data = replay.own_log(*case._replace(policy=1 - case.policy))
        if data != replay.own_log(*case):
            return case, data, None, None


# ---------------------------------------------------------------------------
# Blind damage, and cases that are at fault


def damaged(rng):
    case = dense_case(rng)
    data = replay.log_of(Vendor(rng, case))
    for _ in range(rng.choice([1, 1, 1, 2, 4])):
        data = cases.damaged(rng, data)
    return case, data, None, None


def of_bytes(rng):
    case = dense_case(rng)
    pieces = [b"slot", b"slot\t0", b"\t", b"\t1", b"\t2", b"\n", b"\n", b"\r\n", b"\r", b"0", b"1"]
    if rng.random() < 0.5:
        data = b"".join(rng.choice(pieces) for _ in range(rng.randrange(20)))
    else:
        data = rng.randbytes(rng.randrange(1, 60))
    return case, data, None, None


def any_log(rng):
    made = rng.choice([own, ties_at_random, lines_missing, of_bytes, damaged])
    return made(rng)[1]


def case_at_fault(rng, number):
    case, place = cases.broken_case(rng, number)
    return case, any_log(rng), number, place


KINDS = {
    "our own": own,
    "ties at random": ties_at_random,
    "ties to the higher": ties_to_the_higher,
    "the last newline missing": without_newline,
    "broken both ways": broken_both_ways,
    "broken without newline": broken_without_newline,
    "lines missing": lines_missing,
    "lines past the end": lines_past_the_end,
    "a bad line past the end": bad_line_past_the_end,
    "careless": careless,
    "turned back": turned_back,
    "of the other policy": of_the_other_policy,
    "damaged": damaged,
    "bytes": of_bytes,
    **{f"line, {name}": (lambda rng, breaker=breaker: with_bad_line(rng, breaker)) for name, breaker in LINE_BREAKERS.items()},
    **{f"set, {name}": (lambda rng, breaker=breaker: with_broken_set(rng, breaker)) for name, breaker in SET_BREAKERS.items()},
}

# Kinds with many ways are drawn more often than once a round; of the cases at
# fault one number comes in each round.
ROUND = list(KINDS) + ["ties at random"] * 3 + ["careless"] * 8 + ["turned back"] * 4 + ["damaged"] * 4 + ["case at fault"] * 2


def log_of_kind(rng, kind, turn):
    if kind == "case at fault":
        numbers = list(cases.CASE_BREAKERS)
        case, data, number, place = case_at_fault(rng, numbers[turn % len(numbers)])
    else:
        case, data, number, place = KINDS[kind](rng)
    return Log(kind, case, cases.perhaps_returned(rng, data), number, place)


def logs(seed, count):
    """Logs of each kind in turn."""
    rng = random.Random(f"logs {seed}")
    for at in range(count):
        turn, kind = divmod(at, len(ROUND))
        yield log_of_kind(rng, ROUND[kind], turn)


# ---------------------------------------------------------------------------
# Worked by hand from requests P2 and P4: what, the case, the log (shown with
# blanks for tabs, strokes for newlines and _ for blanks), number and place,
# and what is said of the slot.

SET_A = [10, 1, 4, 10, 1, 1, 10, 5, 5]
ALL_AT_0 = [0, 1, 0, 2, 0, 3]
A = cases.Case(2, 1, SET_A, 10, ALL_AT_0)
A_EDF = A._replace(policy=0)

# The first lines of set A's own log, those after them, and one more.
HEAD_A = "slot 0 2 3|slot 1 1 3|slot 2 3|slot 3 3|slot 4 3|"
IDLE_A = "slot 5|slot 6|slot 7|slot 8|slot 9|"
LOG_A = HEAD_A + IDLE_A
REST_A = LOG_A.split("|", 1)[1]

# One processor: two jobs of two units, both due at 4; then one of them of one unit.
TWO = cases.Case(1, 0, [4, 2, 4, 4, 2, 4], 4, [0, 1, 0, 2])
TWO_AND_ONE = cases.Case(1, 0, [4, 2, 4, 4, 1, 4], 4, [0, 1, 0, 2])

# Two processors.  Tasks 1 and 2 are demoted at 0 and due at 5, task 3 is normal until 2: the count for l = 5 is 5 - 12 div 3 = 1, for
# l = 2 it is 2 - 6 div 3 = 0.  Then the same with deadlines 5 and 4: 5 - 11 div 3 = 2 and 4 - 10 div 3 = 1.
DEMOTED = cases.Case(2, 1, [10, 1, 5, 10, 1, 5, 10, 2, 2], 2, ALL_AT_0)
DEMOTED_APART = cases.Case(2, 1, [10, 2, 5, 10, 1, 4, 10, 2, 2], 1, ALL_AT_0)

# One processor.  Task 1's count of 5 - 9 div 2 = 1 goes down in slot 0, where it is alone, so that it is still normal at 1.
ALONE = cases.Case(1, 1, [7, 2, 5, 5, 2, 4], 2, [0, 1, 1, 2])

# Two processors.  Task 1's count of 3 - 8 div 3 = 1 stays in slot 0 with its three jobs, so that it is demoted at 1.
CROWDED = cases.Case(2, 1, [3, 2, 3, 3, 2, 2, 3, 2, 3], 3, ALL_AT_0)

# Two processors.  Task 1's count of 5 - 11 div 3 = 2 is larger than its execution (request P3): demoted at 0, and due at 5 like task 3.
LARGER = cases.Case(2, 1, [10, 1, 5, 10, 1, 1, 10, 5, 5], 2, ALL_AT_0)

# Two processors.  Task 1's count of 4 - 8 div 3 = 2 is its execution: demoted at 0, alone in slot 0, and due at 4 like task 2.
STILL_DEMOTED = cases.Case(2, 1, [5, 2, 4, 5, 3, 3, 5, 1, 1], 2, [0, 1, 1, 2, 1, 3])


def due(*deadlines):
    """One slot on two processors, with a job of one unit for each of the deadlines."""
    table = cases.flat((9, 1, deadline) for deadline in deadlines)
    return cases.Case(2, 0, table, 1, cases.flat((0, task) for task in range(1, len(deadlines) + 1)))


def of_accepted():
    yield "our own", A, LOG_A
    yield "returns in all lines", A, LOG_A.replace("|", "\r|")
    yield "a return in the first line", A, LOG_A.replace("|", "\r|", 1)
    yield "a return in the last line", A, LOG_A[:-1] + "\r|"
    yield "returns in slots in which nobody runs", A, HEAD_A + IDLE_A.replace("|", "\r|")
    yield "our own under EDF", A_EDF, "slot 0 1 2|slot 1 3|slot 2 3|slot 3 3|slot 4 3|" + IDLE_A
    for ran in ("1122", "2211", "1212", "2121", "1221", "2112"):
        yield "a tie " + ran, TWO, "".join(f"slot {t} {task}|" for t, task in enumerate(ran))
    yield "a tie after which less is left of the other", TWO_AND_ONE, "slot 0 2|slot 1 1|slot 2 1|slot 3|"
    yield "a tie after the first unit", TWO_AND_ONE, "slot 0 1|slot 1 2|slot 2 1|slot 3|"
    yield "two demoted, the lower first", DEMOTED, "slot 0 1 3|slot 1 2 3|"
    yield "two demoted, the higher first", DEMOTED, "slot 0 2 3|slot 1 1 3|"
    yield "two demoted with other deadlines", DEMOTED_APART, "slot 0 2 3|"
    yield "a free count that went down", ALONE, "slot 0 1|slot 1 1|"
    yield "a free count that stayed", CROWDED, "slot 0 1 2|slot 1 2 3|slot 2 1 3|"
    yield "a free count larger than what is left", LARGER, "slot 0 2 3|slot 1 1 3|"
    yield "demoted in a slot without contention", STILL_DEMOTED, "slot 0 1|slot 1 2 3|"
    yield "a tie of three for one place", due(3, 2, 3, 3), "slot 0 2 4|"
    yield "a tie of four for two places", due(3, 3, 3, 3), "slot 0 2 3|"


BAD_LINES = [
    "", " ", "slot", "slot ", "slot 0 2 3 ", " slot 0 2 3", "slot  0 2 3", "slot 0  2 3", "slots 0 2 3", "Slot 0 2 3", "running 0 2 3",
    "slot0 2 3", "slot_0 2 3", "slot 0 2_3", "slot 0 2 3_", "slot 0 2,3", "slot 0 2 x", "slot 0 2 3\0", "slot 00 2 3",
    "slot 0 02 3", "slot 0 2 03", "slot -0 2 3", "slot 0 +2 3", "slot 0 2 3 0000000033", "slot 0 2 1000000000", "slot 0 2 3 4294967299",
    "slot 0 3 2", "slot 0 2 2", "slot 0 2 3 3", "slot 0 2 3 1", "slot 0 0 0", "slot 0 33 0", "slot 1 2 3", "slot 10 2 3",
    "slot 999999999 2 3", "\r", "slot\r", "slot \r", "slot 0 2 3\r\r", "slot 0 2 3\r\r\r", "slot 0 2 3\r3", "slot 0 2 3\r ", "slot 0 2\r 3",
    "slot 0\r 2 3", "slot 0 \r2 3", "slot 0 2 \r3", "slot\r 0 2 3", "\rslot 0 2 3", "s\rlot 0 2 3", "slot 0 2 3 \r"]


def of_17():
    for line in BAD_LINES:
        yield f"first line {line!r}", A, line + "|" + REST_A, 1
    yield "the last newline missing", A, LOG_A[:-1], 10
    yield "one byte", A, "s", 1
    yield "a first line that repeats a task and names too many", A, "slot 0 1 2 3 3|" + REST_A, 1
    yield "a first line without a newline and with nobody", A, "slot 0", 1
    yield "the second line twice", A, "slot 0 2 3|slot 1 1 3|slot 1 1 3|", 3
    yield "a line left out", A, LOG_A.replace("slot 3 3|", ""), 4
    yield "an empty line behind the end", A, LOG_A + "|", 11
    yield "a bad line behind one too many", A, LOG_A + "slot 10|slot 11 2 1|", 12
    yield "a cut line behind the end", A, LOG_A + "slot 10", 11
    yield "a wrong time behind the end", A, LOG_A + "slot 11|", 11
    yield "two returns in a later line", A, LOG_A.replace("|", "\r|").replace("slot 3 3", "slot 3 3\r"), 4
    yield "a return for the last newline", A, LOG_A[:-1] + "\r", 10
    yield "a return behind the last newline", A, LOG_A + "\r", 11
    yield "a line of a return behind the last", A, LOG_A + "\r|", 11
    yield "returns for newlines", A, LOG_A.replace("|", "\r"), 1
    yield "returns behind newlines", A, LOG_A.replace("|", "|\r"), 2


def of_18():
    normal, demoted = "(normal, deadline {})".format, "(demoted, deadline {})".format
    yield "a demoted one first", A, "slot 0 1 2|" + REST_A, 1, f"slot 0: task 3 {normal(5)} waits, task 1 {demoted(4)} runs"
    yield "the same and a bad line later", A, "slot 0 1 2|slot x|", 1, f"slot 0: task 3 {normal(5)} waits, task 1 {demoted(4)} runs"
    yield "EDF-CF's log under EDF", A_EDF, LOG_A, 1, f"slot 0: task 1 {normal(4)} waits, task 3 {normal(5)} runs"
    yield "one of two", A, "slot 0 2|" + REST_A, 1, "slot 0: 1 ran of 2 that should"
    yield "three of two", A, "slot 0 1 2 3|" + REST_A, 1, "slot 0: 3 ran of 2 that should"
    yield "nobody of two", A, "slot 0|" + REST_A, 1, "slot 0: 0 ran of 2 that should"
    yield "nobody of one", A, HEAD_A.replace("slot 3 3", "slot 3"), 4, "slot 3: 0 ran of 1 that should"
    for number in (0, 33, 64, 256, 4294967, 999_999_999):
        yield f"number {number}", A, f"slot 0 {' '.join(map(str, sorted([2, number])))}|", 1, "slot 0: names a number that is no task"
    yield "no task among too many", A, "slot 0 0 1 2 3 4|", 1, "slot 0: names a number that is no task"
    yield "beyond the table", A, "slot 0 2 4|", 1, "slot 0: task 4 runs without a job"
    yield "task 32", A, "slot 0 2 3 32|", 1, "slot 0: task 32 runs without a job"
    yield "finished before", A, "slot 0 2 3|slot 1 1 2 3|", 2, "slot 1: task 2 runs without a job"
    yield "two without a job", A, "slot 0 2 3|slot 1 2 4|", 2, "slot 1: task 2 runs without a job"
    yield "nobody is there", A, HEAD_A + "slot 5 1|", 6, "slot 5: task 1 runs without a job"
    yield "missed before", A_EDF, "slot 0 1 2|slot 1 3|slot 2 3|slot 3 3|slot 4 3|slot 5 3|", 6, "slot 5: task 3 runs without a job"
    yield "three units of two", TWO, "slot 0 1|slot 1 1|slot 2 1|slot 3 2|", 3, "slot 2: task 1 runs without a job"
    turned = "slot 0 2|slot 1 1|slot 2 2|slot 3|"
    yield "our own set after the tie went the other way", TWO_AND_ONE, turned, 3, "slot 2: task 2 runs without a job"
    yield "nobody after the tie went the other way", TWO_AND_ONE, "slot 0 2|slot 1 1|slot 2|slot 3|", 3, "slot 2: 0 ran of 1 that should"
    yield "demoted in between", CROWDED, "slot 0 1 2|slot 1 1 2|", 2, f"slot 1: task 3 {normal(3)} waits, task 1 {demoted(3)} runs"
    larger = f"slot 0: task 3 {normal(5)} waits, task 1 {demoted(5)} runs"
    yield "demoted by a larger count", LARGER, "slot 0 1 2|slot 1 3|", 1, larger
    again = f"slot 1: task 2 {normal(4)} waits, task 1 {demoted(4)} runs"
    yield "still demoted", STILL_DEMOTED, "slot 0 1|slot 1 1 3|", 2, again
    yield "both demoted", DEMOTED, "slot 0 1 2|slot 1 3|", 1, f"slot 0: task 3 {normal(2)} waits, task 1 {demoted(5)} runs"
    yield "the later of two demoted", DEMOTED_APART, "slot 0 1 3|", 1, f"slot 0: task 2 {demoted(4)} waits, task 1 {demoted(5)} runs"
    yield "the second is too late", due(1, 5, 3), "slot 0 1 2|", 1, f"slot 0: task 3 {normal(3)} waits, task 2 {normal(5)} runs"
    yield "the two latest", due(5, 6, 3, 2), "slot 0 1 2|", 1, f"slot 0: task 3 {normal(3)} waits, task 1 {normal(5)} runs"
    yield "the lowest that waits is late", due(9, 5, 2, 3), "slot 0 2 3|", 1, f"slot 0: task 4 {normal(3)} waits, task 2 {normal(5)} runs"
    yield "the first of two before one", due(5, 1, 3, 4), "slot 0 1 2|", 1, f"slot 0: task 3 {normal(3)} waits, task 1 {normal(5)} runs"


def of_19():
    yield "nothing", A, ""
    yield "one line short", A, LOG_A.rsplit("slot", 1)[0]
    yield "one line", A, "slot 0 2 3|"
    yield "one line more", A, LOG_A + "slot 10|"
    yield "one line more with a set that no slot could run", A, LOG_A + "slot 10 0 1 2 3 33 999999999|"
    yield "twice as many", A, LOG_A + "".join(f"slot {t} {t}|" for t in range(10, 20))
    yield "another end", A._replace(end=9), LOG_A


def of_cases():
    for what, case, number, place in [
            ("33 processors", A._replace(procs=33), 4, 0),
            ("policy 2", A._replace(policy=2), 14, 0),
            ("no task", A._replace(table=[]), 5, 0),
            ("a broken task", A._replace(table=[10, 1, 4, 10, 1, 1, 10, 5, 4]), 6, 3),
            ("end over 100,000", A._replace(end=100_001), 7, 0),
            ("release numbers not in twos", A._replace(trace=ALL_AT_0[:5]), 12, 0),
            ("a release of no task", A._replace(trace=[0, 1, 0, 4]), 8, 2),
            ("a release at the end", A._replace(trace=[0, 1, 0, 2, 10, 3]), 11, 3),
            ("the same release twice", A._replace(trace=[0, 1, 0, 1]), 9, 2),
            ("less than T between releases", A._replace(trace=[0, 1, 0, 2, 0, 3, 9, 1]), 10, 4),
            ("a task without a release", A._replace(trace=[0, 1, 0, 2]), 16, 3),
            ("no slot", A._replace(end=0, trace=[]), 16, 1)]:
        for log in ("", LOG_A, "slot"):
            yield f"{what}, log of {len(log)} bytes", case, log, number, place


# what, the case, the log, number, place, what is said of the slot where it is 18.
ByHand = namedtuple("ByHand", "what case log number place said", defaults=[None])


def as_bytes(shown):
    return shown.replace(" ", "\t").replace("_", " ").replace("|", "\n").encode()


def by_hand():
    rows = [(*row, 0, 0) for row in of_accepted()] + [(*row, 19, 0) for row in of_19()] + list(of_cases())
    rows += [(*row[:3], 17, row[3]) for row in of_17()] + [(*row[:3], 18, *row[3:]) for row in of_18()]
    return [ByHand(what, case, as_bytes(shown), *answer) for what, case, shown, *answer in rows]


BY_HAND = by_hand()
