"""Seeded inputs for Thrumcomb: legal ones, nearly legal ones, damaged ones.

The same seed gives the same inputs.  Four streams are offered:

  legal_cases(seed, count)   cases that no call refuses
  calls(seed, count)         calls on numbers, each with the answer it aims at
  texts(seed, count)         texts for the reader, each with the answer it aims
                             at where that is known
  conversions(seed, count)   texts for the converter, each with its room and the
                             answer it aims at where that is known

An aim is the pair (number, place): (0, 0) for a call that is to be accepted,
else the refusal that comes first in document 01's order, with 16 between 10
and 13, and the converter's 13 last.  Where a fault decides the answer, all that comes later in that order
is often spoiled as well, so that another order shows itself.
"""

import random
from collections import namedtuple

import replay

MOST = 2**32 - 1

Case = namedtuple("Case", "procs policy table end trace")

# name is the name of the call in replay.py, args are its arguments.
Call = namedtuple("Call", "name args number place")

# kind names the way the text was made; number and place are None where the
# damage is blind and the answer is not known beforehand.
Text = namedtuple("Text", "kind data task_room release_room number place")

# kind, number and place as of a Text; the room is one of bytes.
Conversion = namedtuple("Conversion", "kind data room number place")


# ---------------------------------------------------------------------------
# Legal cases: each task has a release

# size: (most processors, most tasks, longest period, latest end)
SIZES = {
    "tiny": (2, 3, 5, 12),
    "small": (4, 8, 14, 60),
    "middle": (12, 20, 80, 500),
    "large": (32, 32, 10_000, 100_000),
}


def size_for(rng):
    """Mostly small sizes, so that thousands of cases run quickly."""
    return rng.choices(["tiny", "small", "middle"], [3, 6, 1])[0]


def within(low, value, high):
    return max(low, min(value, high))


def mixed_shape(rng, tasks, longest):
    """Periods and deadlines drawn freely, with many equal ones."""
    shared = rng.randint(1, longest)
    share = rng.random()
    shape = []
    for _ in range(tasks):
        T = shared if rng.random() < share else rng.randint(1, longest)
        D = rng.choice([T, T, rng.randint(1, T), rng.randint((T + 1) // 2, T),
                        within(1, T - 1, T)])
        shape.append((T, D))
    return shape


def mixed_execution(rng, free, D, largest):
    return rng.choice([free, free + 1, free + 2, free + rng.randint(1, 4),
                       free - 1, D, 1, rng.randint(1, D), (D + 1) // 2])


def spread_shape(rng, tasks, longest):
    """One long period and deadlines spread over it."""
    T = longest
    deadlines = [rng.randint(1, T) for _ in range(tasks)]
    if rng.random() < 0.3:
        deadlines.sort()
    return [(rng.choice([T, T, T, rng.randint(D, T)]), D) for D in deadlines]


def spread_execution(rng, free, D, largest):
    """The job with the latest deadline has next to no time to spare.

    The others before it can be demoted where they have a free count, so that
    the two policies judge it differently.
    """
    if D == largest:
        return D - rng.choice([0, 0, 0, 1, 2])
    if free > 0:
        return free + rng.choice([-1, 0, 0, 0, 1, 1, 2])
    return rng.choice([D, D, 1, rng.randint(1, D)])


def table_of(rng, procs, shape, execution):
    """A legal table, with execution times placed about the free counts.

    A free count rests on T and D alone, so C can be chosen beside it: equal to
    it or below (demoted at once), a little above (often demoted later), or far
    above (seldom demoted).
    """
    known = [replay.Task(T, 1, D) for T, D in shape]
    largest = max(task.D for task in known)
    table = []
    for task in known:
        free = replay.free_count(procs, known, task)
        C = execution(rng, free, task.D, largest)
        table += [task.T, within(1, C, task.D), task.D]
    return table


def some_table(rng, procs, tasks, longest, spread):
    if spread:
        return table_of(rng, procs, spread_shape(rng, tasks, longest), spread_execution)
    return table_of(rng, procs, mixed_shape(rng, tasks, longest), mixed_execution)


def some_times(rng, T, first, end, slack, keep, most):
    """Legal times of one task, from the first on; not all are left out."""
    times = []
    time = first
    while time < end and len(times) < most:
        times.append(time)
        time += T + (rng.randint(0, slack) if rng.random() < 0.5 else 0)
    return [time for time in times if rng.random() < keep] or [rng.choice(times)]


def cut(rng, releases, most):
    """The releases, or as many of them as are wanted, one of each task at least.

    Dropping releases keeps the rest legal as long as each task appears.
    """
    if len(releases) <= most:
        return releases
    wanted = list(releases)
    if rng.random() < 0.5:
        rng.shuffle(wanted)
    one_each = {}
    for release in wanted:
        one_each.setdefault(release[1], release)
    kept = set(one_each.values())
    others = [release for release in wanted if release not in kept]
    return sorted([*kept, *others[:most - len(kept)]])


def some_releases(rng, table, end, most):
    """Legal releases of all tasks in order, as (time, task) pairs.

    The end is 1 or more, so that each task can appear, and `most` is no less
    than there are tasks.
    """
    tasks = replay.tasks_of(table)
    together = rng.random() < 0.6
    start = rng.choice([0, 0, 0, rng.randint(0, end // 2)])
    slack = rng.choice([0, 0, 1, 3, max(t.T for t in tasks)])
    keep = rng.choice([1.0, 1.0, 0.9, 0.5])
    found = []
    for number, task in enumerate(tasks, start=1):
        latest = start if together else min(start + task.T, end - 1)
        first = rng.randint(start, latest)
        times = some_times(rng, task.T, first, end, slack, keep,
                           max(1, 40 * most - len(found)))
        found += [(time, number) for time in times]
    return cut(rng, sorted(found), most)


def end_at_a_deadline(rng, table, end, releases):
    """Some job's deadline, or one slot to either side of it.

    By then each task has appeared; the end stays where there is no such time.
    """
    first = {task: time for time, task in reversed(releases)}
    shift = rng.choice([-1, 0, 0, 0, 1])
    ends = [min(time + table[3 * task - 1] + shift, 100_000)
            for time, task in releases]
    late = [found for found in ends if found > max(first.values())]
    return rng.choice(late or [end])


def flat(pairs):
    return [number for pair in pairs for number in pair]


def legal_case(rng, size=None):
    size = size or size_for(rng)
    most_procs, most_tasks, longest, latest = SIZES[size]
    tasks = rng.randint(1, most_tasks)
    # Contention lies where the number of tasks is a little above m.
    spread = rng.random() < 0.5
    if spread:
        procs = tasks - rng.choice([1, 1, 1, 2])
        longest = rng.randint((longest + 1) // 2, longest)
    else:
        procs = rng.choice([tasks - 1, tasks - 2, tasks // 2, tasks, tasks + 1,
                            1, 2, rng.randint(1, most_procs)])
        longest = rng.choice([longest, rng.randint(1, longest)])
    procs = within(1, procs, 32)
    policy = rng.choice([0, 1, 1])
    table = some_table(rng, procs, tasks, longest, spread)
    end = rng.choice([1, 2] + [latest] * 4 + [rng.randint(1, latest)] * 24)
    most = rng.choice([tasks, tasks + 1] + [2_000] * 24
                      + [rng.randint(tasks, 2_000)] * 4)
    releases = some_releases(rng, table, end, most)
    if rng.random() < 0.5:
        end = end_at_a_deadline(rng, table, end, releases)
        releases = [pair for pair in releases if pair[0] < end]
    return Case(procs, policy, table, end, flat(releases))


def rivals_execution(rng, free, D, largest):
    return free - rng.choice([0, 0, 1]) if D == largest else D


def rivals_case(rng):
    """A job that has a processor for a slot or two, and then meets rivals that fill them all.

    Its execution is its free count or one below, where that is 1 or more, so
    that EDF-CF demotes it at its release.  One of the rivals is due about when
    it is: who waits shows whether it is still demoted.
    """
    procs = rng.randint(2, 5)
    longest = rng.randint(4, 10)
    later = rng.randint(1, 2)
    T = longest + rng.randint(0, 3)
    deadlines = [longest, longest - later + rng.choice([0, 0, 1])]
    deadlines += [rng.randint(1, 2) for _ in range(procs - 1)]
    if rng.random() < 0.3:
        rng.shuffle(deadlines)
    table = table_of(rng, procs, [(T, D) for D in deadlines], rivals_execution)
    end = rng.randint(later + 1, 3 * T)
    releases = []
    for number, D in enumerate(deadlines, start=1):
        first = 0 if D == longest else later
        releases += [(time, number) for time in range(first, end, T)]
    return Case(procs, rng.choice([0, 1, 1, 1]), table, end, flat(sorted(releases)))


def full_case(rng, policy=None):
    """The most of everything: 32 tasks, 2,000 releases, end 100,000."""
    procs = rng.choice([1, 8, 15, 31, 32])
    table = []
    for _ in range(32):
        T = rng.randint(1_200, 1_560)
        D = rng.choice([T, rng.randint(T // 2, T)])
        table += [T, rng.randint(1, D), D]
    releases = []
    for number, task in enumerate(replay.tasks_of(table), start=1):
        releases += [(time, number)
                     for time in range(rng.randint(0, 50), 100_000, task.T)]
    releases = sorted(releases)[:2_000]
    if policy is None:
        policy = rng.choice([0, 1])
    return Case(procs, policy, table, 100_000, flat(releases))


def longest_text_case():
    """The case whose written text is among the longest that exist."""
    table = [10_000, 10_000, 10_000] * 32
    table[-3:] = [40, 40, 40]
    releases = [(98_000 + t, 1 + t) for t in range(31)]
    releases += [(10_000 + 45 * k, 32) for k in range(1_969)]
    return Case(32, 1, table, 100_000, flat(sorted(releases)))


def legal_cases(seed, count):
    rng = random.Random(f"legal {seed}")
    for _ in range(count):
        yield rivals_case(rng) if rng.random() < 0.1 else legal_case(rng)


def large_cases(seed, count):
    rng = random.Random(f"large {seed}")
    for _ in range(count):
        yield legal_case(rng, "large")


def case_with_releases(rng, least, size=None):
    while True:
        case = legal_case(rng, size)
        if len(case.trace) >= 2 * least:
            return case


# ---------------------------------------------------------------------------
# Numbers without any rule


def wild(rng):
    return rng.choice([
        0, 1, 2, 3, 31, 32, 33, 9_999, 10_000, 10_001, 99_999, 100_000,
        100_001, 2**31 - 1, 2**31, MOST - 1, MOST,
        rng.randint(0, 12), rng.randint(0, MOST),
    ])


def wild_list(rng, lengths):
    return [wild(rng) for _ in range(rng.choice(lengths))]


def wild_table(rng):
    return wild_list(rng, [0, 1, 2, 3, 4, 6, 9, 10, 96, 97, 99])


def wild_trace(rng):
    return wild_list(rng, [0, 1, 2, 3, 4, 8, 9, 40])


def some_room(rng, length):
    """A room of the length, no two of its numbers equal."""
    first = rng.randint(0, MOST - length)
    return list(range(first, first + length))


def some_bytes(rng, length):
    return list(rng.randbytes(length))


# ---------------------------------------------------------------------------
# Faults in numbers.  Each function takes a case and returns the broken case
# with the place of its fault; what comes later in the order may be wild.  The
# case is legal but for tasks without a release, which are a fault that comes
# after all of these but its own.


def spoil_later(rng, case, *fields):
    """The case with the named fields, later in the order, perhaps wild."""
    if rng.random() < 0.5:
        return case
    makers = {"policy": wild, "table": wild_table, "end": wild,
              "trace": wild_trace}
    return case._replace(**{field: makers[field](rng) for field in fields})


def break_procs(rng, case):
    procs = rng.choice([0, 33, 34, 64, 2**16, 2**31, MOST,
                        rng.randint(33, MOST)])
    case = spoil_later(rng, case, "policy", "table", "end", "trace")
    return case._replace(procs=procs), 0


def break_policy(rng, case):
    policy = rng.choice([2, 3, 256, 2**31, MOST, rng.randint(2, MOST)])
    case = spoil_later(rng, case, "table", "end", "trace")
    return case._replace(policy=policy), 0


def break_table_length(rng, case):
    table = case.table
    broken = rng.choice([
        [],
        table[:-1],
        table[:-2],
        table + [1],
        table + [10, 1],
        ([5, 1, 5] * 33),
        (table * 33)[:99],
        (table * 33)[:97],
        (table * 33)[:98],
        [5, 1, 5] * 64,
    ])
    case = spoil_later(rng, case, "end", "trace")
    return case._replace(table=broken), 0


def broken_task(rng, most=MOST):
    T = rng.randint(1, 10_000)
    D = rng.randint(1, T)
    C = rng.randint(1, D)
    return rng.choice([
        (T, 0, D), (T, 0, 0), (0, 0, 0), (T, D + 1, D), (T, most, D),
        (T, C, T + 1), (D, C, D + 1), (C - 1, C, C), (T, C, 0), (T, C, most),
        (10_001, 1, 1), (10_001, 10_001, 10_001), (most, 1, 1),
        (most, most, most), (0, C, D),
    ])


def break_task(rng, case, most=MOST, wild_number=wild):
    tasks = len(case.table) // 3
    place = rng.randint(1, tasks)
    table = list(case.table)
    table[3 * place - 3:3 * place] = broken_task(rng, most)
    if rng.random() < 0.5:
        for i in range(3 * place, len(table)):
            table[i] = wild_number(rng)
    return case._replace(table=table), place


def break_task_call(rng, case):
    case = spoil_later(rng, case, "end", "trace")
    return break_task(rng, case)


def break_end(rng, case):
    end = rng.choice([100_001, 100_002, 2**31, MOST, rng.randint(100_001, MOST)])
    case = spoil_later(rng, case, "trace")
    return case._replace(end=end), 0


def too_many_releases(rng):
    """A case with 2,001 releases or more, all of its first task."""
    extra = rng.choice([1, 1, 1, 2, 9])
    return Case(rng.randint(1, 32), rng.choice([0, 1]),
                [1, 1, 1] * rng.choice([1, 1, 2]),
                rng.choice([2_000 + extra, 100_000]),
                flat((time, 1) for time in range(2_000 + extra)))


def break_trace_length(rng, case):
    way = rng.randrange(4)
    if way == 0 and case.trace:
        return case._replace(trace=case.trace[:-1]), 0
    if way == 1:
        return case._replace(trace=case.trace + [rng.choice([0, 1, MOST])]), 0
    if way == 2:
        return too_many_releases(rng), 0
    trace = wild_list(rng, [1, 3, 5, 41, 3_999, 4_001, 4_002, 4_003])
    return case._replace(trace=trace), 0


def with_release(rng, case, place, release, wild_number=wild):
    """The case with one release put in; the later ones perhaps wild."""
    trace = list(case.trace)
    trace[2 * place - 2:2 * place] = release
    if rng.random() < 0.5:
        for i in range(2 * place, len(trace)):
            trace[i] = wild_number(rng)
    return case._replace(trace=trace), place


def some_place(rng, case):
    return rng.randint(1, len(case.trace) // 2)


def break_named_task(rng, case, most=MOST, wild_number=wild):
    place = some_place(rng, case)
    tasks = len(case.table) // 3
    time = rng.choice([case.trace[2 * place - 2], 0, case.end, most])
    task = rng.choice([0, tasks + 1, tasks + 1, 33, most])
    return with_release(rng, case, place, [time, task], wild_number)


def break_time(rng, case, most=MOST, wild_number=wild):
    place = some_place(rng, case)
    # The task stays or is the one released just before, so that less than T
    # may have passed as well.
    task = rng.choice(case.trace[max(0, 2 * place - 4):2 * place][1::2])
    time = rng.choice([case.end, case.end, case.end + 1, most])
    return with_release(rng, case, place, [time, task], wild_number)


def exchanged(case, place):
    """The case with the release at the place and the one before exchanged."""
    releases = replay.releases_of(case.trace)
    releases[place - 2:place] = reversed(releases[place - 2:place])
    return case._replace(trace=flat(releases))


def break_order(rng, case, wild_number=wild):
    place = rng.randint(2, len(case.trace) // 2)
    if rng.random() < 0.2:
        # No release is lost, and the one refused may be its task's only one.
        case = exchanged(case, place)
        release = case.trace[2 * place - 2:2 * place]
        return with_release(rng, case, place, release, wild_number)
    time, task = case.trace[2 * place - 4:2 * place - 2]
    tasks = len(case.table) // 3
    ways = [(time, task)]
    if task > 1:
        ways += [(time, task - 1), (time, 1)]
    if time > 0:
        ways += [(time - 1, rng.randint(1, tasks)), (time - 1, tasks),
                 (0, rng.randint(1, tasks))]
    return with_release(rng, case, place, rng.choice(ways), wild_number)


def break_separation(rng, case, wild_number=wild):
    """A release too soon after its task's last one; None if there is no room."""
    releases = replay.releases_of(case.trace)
    tasks = replay.tasks_of(case.table)
    place = rng.randint(2, len(releases))
    before = releases[place - 2]
    ways = []
    for number, task in enumerate(tasks, start=1):
        times = [time for time, k in releases[:place - 1] if k == number]
        if not times:
            continue
        for apart in (task.T - 1, task.T - 1, 1):
            time = times[-1] + apart
            if apart < task.T and before < (time, number) and time < case.end:
                ways.append((time, number))
    if not ways:
        return None
    return with_release(rng, case, place, rng.choice(ways), wild_number)


def releases_but_of(case, tasks):
    """The releases of the case, as pairs, but those of the tasks."""
    return [release for release in replay.releases_of(case.trace)
            if release[1] not in tasks]


def released_often(case, task):
    """The case with as many releases of the task as can stand."""
    others = releases_but_of(case, [task])
    times = range(0, case.end, case.table[3 * task - 3])
    often = [(time, task) for time in times[:2_000 - len(others)]]
    return case._replace(trace=flat(sorted(others + often)))


def with_most_tasks(rng, case):
    """A case of 32 tasks, each of them released once."""
    releases = [(rng.randrange(case.end), task) for task in range(1, 33)]
    return case._replace(table=(case.table * 32)[:96],
                         trace=flat(sorted(releases)))


def some_tasks(rng, tasks):
    """Numbers of tasks: one of them, the last ones, some or all."""
    one = rng.choice([1, tasks, rng.randint(1, tasks)])
    return rng.choice([[one], [one], [one],
                       range(one, tasks + 1),
                       rng.sample(range(1, tasks + 1), rng.randint(1, tasks)),
                       range(1, tasks + 1)])


def break_appearance(rng, case):
    """Tasks without a release, of which the lowest is the place."""
    if rng.random() < 0.3:
        case = with_most_tasks(rng, case)
    tasks = len(case.table) // 3
    absent = some_tasks(rng, tasks)
    case = case._replace(trace=flat(releases_but_of(case, absent)))
    place = min(absent)
    if not case.trace:
        return case._replace(end=rng.choice([0, 0, case.end, 100_000])), place
    # A release counts for its own task, not for the one beside it.
    for beside in (place - 1, place + 1):
        if 1 <= beside <= tasks and beside not in absent and rng.random() < 0.5:
            case = released_often(case, beside)
    return case, place


CASE_BREAKERS = {
    4: break_procs,
    14: break_policy,
    5: break_table_length,
    6: break_task_call,
    7: break_end,
    12: break_trace_length,
    8: break_named_task,
    11: break_time,
    9: break_order,
    10: break_separation,
    16: break_appearance,
}

# How many releases a case must have for a breaker to work on it.
RELEASES_FOR = {8: 1, 11: 1, 9: 2, 10: 2, 16: 1}


def thinned(rng, case, least):
    """The case, often with tasks that have no release, or one each.

    Such a task is a fault that is tested late, and so is one whose only
    release a breaker spoils.  As many releases as the least are left.
    """
    tasks = len(case.table) // 3
    releases = replay.releases_of(case.trace)
    kept = rng.choice([releases, releases, cut(rng, releases, tasks),
                       releases_but_of(case, some_tasks(rng, tasks))])
    return case._replace(trace=flat(kept)) if len(kept) >= least else case


def case_to_break(rng, number, size=None):
    """A case for the breaker of a number."""
    least = RELEASES_FOR.get(number, 0)
    case = case_with_releases(rng, least, size)
    return case if number == 16 else thinned(rng, case, least)


def broken_case(rng, number):
    while True:
        broken = CASE_BREAKERS[number](rng, case_to_break(rng, number))
        if broken is not None:
            return broken


# ---------------------------------------------------------------------------
# Calls on numbers

AIMS = {
    "counts": [0, 4, 5, 6, 13],
    "replay": [0, 4, 14, 5, 6, 7, 12, 8, 11, 9, 10, 16, 13],
    "running_set": [0, 4, 14, 5, 6, 7, 12, 8, 11, 9, 10, 16, 15],
    "write_case": [0, 4, 14, 5, 6, 7, 12, 8, 11, 9, 10, 16, 13],
}


def room_needed(name, case):
    if name == "counts":
        return len(case.table) // 3
    if name == "replay":
        return 3 * (len(case.trace) // 2)
    return len(text_of(case))


def call_of(rng, name, case, number, place):
    """The call on the case, with a room or a slot that fits the aim."""
    if name == "running_set":
        if number == 0:
            slot = rng.choice([0, case.end - 1, rng.randrange(case.end)])
        elif number == 15:
            slot = rng.choice([case.end, case.end, case.end + 1, MOST])
        elif number == 16:
            slot = rng.choice([0, case.end, wild(rng)])
        else:
            slot = wild(rng)
        return Call(name, (*case, slot), number, place)

    if number == 0:
        needed = room_needed(name, case)
        length = rng.choice([needed, needed, needed + 1, needed + 50])
    elif number == 13:
        needed = room_needed(name, case)
        length = rng.choice([needed - 1, needed - 1, 0, rng.randrange(needed)])
    elif number == 16:
        needed = room_needed(name, case)
        length = rng.choice([0, max(0, needed - 1), needed, needed + 50])
    else:
        length = rng.choice([0, 1, 7, 40])
    room = some_bytes(rng, length) if name == "write_case" else some_room(rng, length)
    if name == "counts":
        return Call(name, (case.procs, case.table, room), number, place)
    return Call(name, (*case, room), number, place)


def call_aiming_at(rng, name, number):
    if number in CASE_BREAKERS:
        case, place = broken_case(rng, number)
    else:
        case, place = legal_case(rng), 0
    return call_of(rng, name, case, number, place)


def calls(seed, count):
    """Each call with each of its aims in turn."""
    rng = random.Random(f"calls {seed}")
    aims = [(name, number) for name, numbers in AIMS.items()
            for number in numbers]
    for i in range(count):
        yield call_aiming_at(rng, *aims[i % len(aims)])


# ---------------------------------------------------------------------------
# Texts


def lines_of(case, with_policy=True):
    """The lines of a case, each without its newline."""
    lines = [b"procs\t%d" % case.procs]
    if with_policy:
        lines.append(b"policy\t" + (b"edf-cf" if case.policy == 1 else b"edf"))
    for i in range(0, len(case.table), 3):
        lines.append(b"task\t%d\t%d\t%d" % tuple(case.table[i:i + 3]))
    lines.append(b"end\t%d" % case.end)
    for i in range(0, len(case.trace), 2):
        lines.append(b"release\t%d\t%d" % tuple(case.trace[i:i + 2]))
    return lines


def joined(lines):
    return b"".join(line + b"\n" for line in lines)


def text_of(case, with_policy=True):
    return joined(lines_of(case, with_policy))


def returned_where(data, chosen):
    """The data with a return before the newline of each line, by its index, that is chosen and has none."""
    *lines, rest = data.split(b"\n")
    ends = [b"\r\n" if chosen(at) and not line.endswith(b"\r") else b"\n" for at, line in enumerate(lines)]
    return b"".join(line + end for line, end in zip(lines, ends)) + rest


def with_returns(rng, data):
    """The data with a return before each newline that has none, or before some of those."""
    share = rng.choice([1, 1, 0.5, 0.1])
    return returned_where(data, lambda at: rng.random() < share)


def without_returns(data):
    """One return before a newline goes."""
    return data.replace(b"\r\n", b"\n")


def perhaps_returned(rng, data):
    """Some of all data come from a desktop that puts returns before newlines: what they say is the same."""
    return with_returns(rng, data) if rng.random() < 0.25 else data


TEXT_MOST = 999_999_999


def wild_in_text(rng):
    """A number without any rule but that it has at most nine digits."""
    return min(wild(rng), TEXT_MOST)


def some_lines(rng):
    """The lines of a legal case, with or without its policy line."""
    case = legal_case(rng, rng.choice(["tiny", "tiny", "small"]))
    return lines_of(case, with_policy=rng.random() < 0.7)


def spoiled(rng, lines, place):
    """The lines with those after the place perhaps spoiled."""
    if rng.random() < 0.5:
        return lines
    later = [rng.choice([line, line + b"\t", b"procs\t0", b""])
             for line in lines[place:]]
    return lines[:place] + later


LINE_WORDS = [b"procs", b"policy", b"task", b"end", b"release"]


def badly_formed(rng, line):
    """A line made badly formed for certain."""
    word, *fields = line.split(b"\t")
    at = rng.randrange(len(fields))

    def with_field(field):
        changed = list(fields)
        changed[at] = field
        return b"\t".join([word, *changed])

    field = fields[at]
    gap = line.index(b"\t") if rng.random() < 0.5 else line.rindex(b"\t")
    ways = [
        b"",
        b"\t",
        word,
        word + b"\t",
        line + b"\t",
        line + b" ",
        line + b"\r\r",
        line + b"\r ",
        line + b"\r\t0",
        b"\r",
        b"\r" + line,
        word + b"\r" + line[len(word):],
        with_field(b"\r" + field),
        with_field(field[:1] + b"\r" + field[1:] + b"0"),
        line + b"\0",
        line + b"\t0",
        b" " + line,
        b"\t" + line,
        b"\0" + line,
        b"\xef\xbb\xbf" + line,
        line[:gap] + b"\t" + line[gap:],
        line[:gap] + b" " + line[gap + 1:],
        line[:gap] + b" " + line[gap:],
        line[:gap] + line[gap + 1:],
        line[:gap] + b"\0" + line[gap + 1:],
        line[:gap] + b"\v" + line[gap + 1:],
        word.upper() + line[len(word):],
        word.title() + line[len(word):],
        word[:-1] + line[len(word):],
        word + b"s" + line[len(word):],
        b"job" + line[len(word):],
        b"\t".join([word, *fields[:-1]]),
        b"# " + line,
        with_field(b""),
        with_field(b" " + field),
        with_field(field + b" "),
        with_field(b"0" + field),
        with_field(b"00"),
        with_field(b"01"),
        with_field(b"1000000000"),
        with_field(b"4294967296"),
        with_field(b"0" * 9 + b"1"),
        with_field(b"9" * 400),
        with_field(b"-1"),
        with_field(b"+1"),
        with_field(b"1.0"),
        with_field(b"1e1"),
        with_field(b"0x1"),
        with_field(b"1_0"),
        with_field(b"a"),
        with_field(b"/"),
        with_field(b":"),
        with_field(b"\xd9\xa1"),
        with_field(b"\xb2"),
        with_field(b"1\0"),
        with_field(b"EDF"),
        with_field(b"edf_cf"),
        with_field(b"edf-cf2"),
        with_field(b"edf-c"),
        with_field(b"ed"),
        with_field(b"edfedf-cf"),
    ]
    if word == b"policy":
        ways += [b"policy\t0", b"policy\t1", b"policy\tedf\tedf-cf"]
    else:
        ways += [with_field(b"edf"), with_field(b"edf-cf")]
    return rng.choice(ways)


def text_too_long(rng):
    lines = some_lines(rng)
    length = rng.choice([60_001, 60_001, 60_002, 65_536, 120_000])
    data = joined(lines)
    filler = rng.choice([b"release\t0\t1\n", b"release\t0\t1\r\n", b"\n", b"\r\n", b"\r", b"\0", b"x", b"1"])
    data += filler * (length // len(filler) + 1)
    return data[:length], 1, 0


def text_too_long_by_its_returns(rng):
    """Well formed, and without its returns far from too long."""
    length = rng.choice([60_001, 60_002])
    data = joined([b"procs\t1", b"task\t1\t1\t1", b"end\t100000"])
    return data + release_lines(length - len(data), b"\r\n"), 1, 0


def release_lines(length, end=b"\n"):
    """Well formed release lines of just that many bytes, 26 or more, each with that end.

    The shortest line has 12 or 13 bytes and one digit for its time; what is
    left over goes into the times of the first two lines.
    """
    count, over = divmod(length, len(b"release\t0\t1" + end))
    first = min(over, 8)
    lines = [b"release\t" + b"1" * (1 + digits) + b"\t1"
             for digits in (first, over - first)]
    return b"".join(line + end for line in lines + [b"release\t0\t1"] * (count - 2))


def text_of_most_bytes(rng):
    """Well formed and just 59,999 or 60,000 bytes: only the releases fault."""
    length = rng.choice([59_999, 60_000])
    data = joined([b"procs\t1", b"task\t1\t1\t1", b"end\t100000"])
    end = rng.choice([b"\n", b"\r\n"])
    return data + release_lines(length - len(data), end), 12, 0


def text_of_most_bytes_bad(rng):
    """Just 59,999 or 60,000 bytes that are no text at all but their front."""
    lines = some_lines(rng)
    data = joined(lines)
    length = rng.choice([59_999, 60_000])
    data += rng.choice([b"\n", b"\r", b"\0", b"x", b"1"]) * (length - len(data))
    return data, 2, len(lines) + 1


def text_badly_formed(rng):
    lines = some_lines(rng)
    place = rng.randint(1, len(lines))
    changed = list(lines)
    changed[place - 1] = badly_formed(rng, lines[place - 1])
    if rng.random() < 0.2:
        # A badly formed line that stands out of order as well.
        other = badly_formed(rng, rng.choice(lines))
        changed.insert(place - 1, other)
    return joined(spoiled(rng, changed, place)), 2, place


def text_without_last_newline(rng):
    lines = some_lines(rng)
    place = rng.randint(1, len(lines))
    last = lines[place - 1]
    if rng.random() < 0.3:
        last = last[:rng.randint(1, len(last))]
    # A return is no newline, behind the line and alone.
    way = rng.randrange(6)
    if way == 0:
        last += b"\r"
    if way == 1:
        return joined(lines) + b"\r", 2, len(lines) + 1
    return joined(lines[:place - 1]) + last, 2, place


def words_in(lines):
    return [line.split(b"\t")[0] for line in lines]


def text_out_of_order(rng):
    lines = some_lines(rng)
    words = words_in(lines)
    first_task = words.index(b"task") + 1
    end = words.index(b"end") + 1
    has_policy = b"policy" in words

    def inserted(line, place):
        return lines[:place - 1] + [line] + lines[place - 1:], place

    way = rng.randrange(11)
    if way == 0:
        # No procs line.
        changed, place = lines[1:], 1
    elif way == 1:
        # A second procs line.
        changed, place = inserted(b"procs\t2", rng.randint(2, len(lines) + 1))
    elif way == 2:
        # A policy line that is the second, or does not follow procs.
        low = first_task if has_policy else first_task + 1
        changed, place = inserted(rng.choice([b"policy\tedf", b"policy\tedf-cf"]),
                                  rng.randint(low, len(lines) + 1))
    elif way == 3:
        # No task line.
        changed, place = lines[:first_task - 1] + lines[end - 1:], first_task
    elif way == 4:
        # No end line.
        changed, place = lines[:end - 1] + lines[end:], end
    elif way == 5:
        # A second end line.
        changed, place = inserted(b"end\t7", rng.randint(end + 1, len(lines) + 1))
    elif way == 6:
        # A task after the end line.
        changed, place = inserted(b"task\t5\t1\t5",
                                  rng.randint(end + 1, len(lines) + 1))
    elif way == 7:
        # A release before the end line.
        changed, place = inserted(b"release\t0\t1", rng.randint(2, end))
    elif way == 8:
        # Something before the procs line.
        changed, place = inserted(rng.choice([b"policy\tedf", b"task\t5\t1\t5",
                                              b"end\t5", b"release\t0\t1"]), 1)
    elif way == 9:
        # The text stops before its end line: a line is missing.
        keep = rng.randint(0, end - 1)
        return joined(lines[:keep]), 3, keep + 1
    else:
        # The end line before the first task.
        changed, place = inserted(b"end\t5", rng.randint(2, first_task))
    return joined(spoiled(rng, changed, place)), 3, place


def text_with_number_fault(rng, number):
    """A text in good form and order whose numbers are at fault."""
    while True:
        case = case_to_break(rng, number, rng.choice(["tiny", "small"]))
        place = 0
        broken = None
        if number == 4:
            procs = rng.choice([0, 33, 40, TEXT_MOST])
            table = [wild_in_text(rng) for _ in case.table]
            broken = case._replace(procs=procs, table=table), 0
        elif number == 5:
            table = (case.table * 64)[:3 * rng.choice([33, 33, 34, 64])]
            end = rng.choice([case.end, 100_001, TEXT_MOST])
            broken = case._replace(table=table, end=end), 0
        elif number == 6:
            end = rng.choice([case.end, 100_001, TEXT_MOST])
            broken = break_task(rng, case._replace(end=end), TEXT_MOST,
                                wild_in_text)
        elif number == 7:
            end = rng.choice([100_001, 100_002, TEXT_MOST])
            trace = [wild_in_text(rng) for _ in case.trace]
            broken = case._replace(end=end, trace=trace), 0
        elif number == 12:
            broken = too_many_releases(rng), 0
            if rng.random() < 0.5:
                broken[0].trace[:4] = [7, 1, 3, 99]
        elif number == 8:
            broken = break_named_task(rng, case, TEXT_MOST, wild_in_text)
        elif number == 11:
            broken = break_time(rng, case, TEXT_MOST, wild_in_text)
        elif number == 9:
            broken = break_order(rng, case, wild_in_text)
        elif number == 10:
            broken = break_separation(rng, case, wild_in_text)
        elif number == 16:
            broken = break_appearance(rng, case)
        if broken is not None:
            case, place = broken
            return text_of(case, rng.random() < 0.7), number, place


def damaged(rng, data):
    """One blind change to a text."""
    lines = data.split(b"\n")
    way = rng.randrange(12)
    at = rng.randrange(len(data) + 1)
    if way == 0:
        return data[:at]
    if way == 1 and at < len(data):
        return data[:at] + bytes([data[at] ^ 1 << rng.randrange(8)]) + data[at + 1:]
    if way == 2 and at < len(data):
        return data[:at] + data[at + 1:]
    if way == 3:
        return data[:at] + rng.choice([b"\t", b"\n", b" ", b"\r", b"\0", b"0",
                                       b"1", b"9", b"\xff"]) + data[at:]
    if way == 4 and at < len(data):
        return data[:at] + rng.randbytes(1) + data[at + 1:]
    i, j = rng.randrange(len(lines)), rng.randrange(len(lines))
    if way == 5:
        lines[i], lines[j] = lines[j], lines[i]
    elif way == 6:
        lines.insert(j, lines[i])
    elif way == 7:
        del lines[i]
    elif way == 8:
        rng.shuffle(lines)
    elif way == 9:
        return b"\r\n".join(lines)
    elif way == 10:
        fields = lines[i].split(b"\t")
        rng.shuffle(fields)
        lines[i] = b"\t".join(fields)
    elif way == 11:
        fields = lines[i].split(b"\t")
        fields[-1] = b"%d" % wild_in_text(rng)
        lines[i] = b"\t".join(fields)
    return b"\n".join(lines)


def text_damaged(rng):
    data = joined(some_lines(rng))
    for _ in range(rng.choice([1, 1, 1, 2, 4])):
        data = damaged(rng, data)
    return data, None, None


def text_of_bytes(rng):
    """Bytes drawn from those that texts are made of, or from all."""
    pieces = LINE_WORDS + [b"\t", b"\n", b"\r\n", b"\r", b"0", b"1", b"edf", b"edf-cf", b" "]
    if rng.random() < 0.5:
        data = b"".join(rng.choice(pieces) for _ in range(rng.randrange(30)))
    else:
        data = rng.randbytes(rng.randrange(60))
    return data, None, None


def text_legal(rng, with_policy):
    case = legal_case(rng)
    return text_of(case, with_policy), 0, 0


def text_with_returns(rng):
    data, number, place = text_legal(rng, rng.random() < 0.5)
    return with_returns(rng, data), number, place


TEXT_KINDS = {
    "legal": lambda rng: text_legal(rng, True),
    "legal without policy": lambda rng: text_legal(rng, False),
    "legal with returns": text_with_returns,
    "too long": text_too_long,
    "too long by its returns": text_too_long_by_its_returns,
    "most bytes": text_of_most_bytes,
    "most bytes, badly formed": text_of_most_bytes_bad,
    "badly formed": text_badly_formed,
    "last newline missing": text_without_last_newline,
    "out of order": text_out_of_order,
    **{f"numbers, {number}": (lambda rng, number=number:
                              text_with_number_fault(rng, number))
       for number in (4, 5, 6, 7, 12, 8, 11, 9, 10, 16)},
    "damaged": text_damaged,
    "bytes": text_of_bytes,
    "short room": None,
}

# Kinds with many ways are drawn more often than once a round.
TEXT_ROUND = list(TEXT_KINDS) + (["badly formed"] * 6 + ["out of order"] * 4
                                 + ["damaged"] * 8 + ["bytes"] * 2)

# The long texts take the most time; these kinds come once in a few rounds.
LONG_TEXTS = {"too long", "too long by its returns", "most bytes",
              "most bytes, badly formed", "numbers, 12"}


def text_made(rng, kind):
    """A text of a kind, with its aim; returns would make a text of nearly the most bytes too long."""
    data, number, place = TEXT_KINDS[kind](rng)
    if kind not in LONG_TEXTS:
        data = perhaps_returned(rng, data)
    return data, number, place


def text_of_kind(rng, kind):
    if kind == "short room":
        source = rng.choice([name for name in TEXT_KINDS if name != kind])
        data, _, _ = text_made(rng, source)
        lengths = rng.choice([(95, 4_000), (96, 3_999), (95, 3_999), (0, 0),
                              (0, 4_000), (96, 0), (95, 5_000), (200, 3_999)])
        number, place = 13, 0
    else:
        data, number, place = text_made(rng, kind)
        lengths = rng.choice([(96, 4_000), (96, 4_000), (97, 4_001),
                              (120, 4_000), (96, 4_100)])
    return Text(kind, data, some_room(rng, lengths[0]),
                some_room(rng, lengths[1]), number, place)


def in_rounds(kinds, count):
    """So many of the kinds in turn, those of long texts in one round of four."""
    made = 0
    turn = 0
    while made < count:
        for kind in kinds:
            if kind in LONG_TEXTS and turn % 4 != 0:
                continue
            if made == count:
                break
            yield kind
            made += 1
        turn += 1


def texts(seed, count):
    """Texts of each kind in turn."""
    rng = random.Random(f"texts {seed}")
    for kind in in_rounds(TEXT_ROUND, count):
        yield text_of_kind(rng, kind)


# ---------------------------------------------------------------------------
# Conversions

CONVERT_AIMS = [*range(14), 16]

# The bytes that a conversion adds: `policy`, tab, `edf`, newline.
ADDED = 11

# Which lines of a text to convert have a return, by their index: the procs line is line 0.
RETURN_WAYS = [
    lambda rng: lambda at: False,
    lambda rng: lambda at: True,
    lambda rng: lambda at: at == 0,
    lambda rng: lambda at: at != 0,
    lambda rng: lambda at: rng.random() < 0.5,
]


def text_to_convert(rng):
    """A text that the reader accepts, and how long it is once it is converted."""
    case = legal_case(rng, rng.choice(["tiny", "tiny", "small", "middle"]))
    with_policy = rng.random() < 0.4
    data = returned_where(text_of(case, with_policy), rng.choice(RETURN_WAYS)(rng))
    return data, len(data) + (0 if with_policy else ADDED)


def room_that_fits(rng, needed):
    return rng.choice([needed, needed, needed, needed + 1, needed + ADDED, needed + 50, replay.LONGEST_TEXT])


def room_too_short(rng, needed):
    """Also one that would hold the text as it was."""
    return rng.choice([needed - 1, needed - 1, needed - ADDED, needed - ADDED, 0, rng.randrange(needed)])


def room_beside_a_fault(rng, data):
    """The room is not looked at: none, one of the text's length, one for any result."""
    return rng.choice([0, 1, len(data), len(data) + ADDED, replay.LONGEST_TEXT])


# The refused and the blindly made kinds of texts, and accepted texts in rooms of both sorts.
CONVERT_ROUND = ([kind for kind in TEXT_ROUND if not kind.startswith(("legal", "short room"))]
                 + ["converted"] * 14 + ["short room"] * 8)


def conversion_of_kind(rng, kind):
    if kind == "converted":
        data, needed = text_to_convert(rng)
        length, number, place = room_that_fits(rng, needed), 0, 0
    elif kind == "short room":
        data, needed = text_to_convert(rng)
        length, number, place = room_too_short(rng, needed), 13, 0
    else:
        data, number, place = text_made(rng, kind)
        length = room_beside_a_fault(rng, data)
    return Conversion(kind, data, some_bytes(rng, length), number, place)


def conversions(seed, count):
    """Texts of each kind in turn, each with a room for its conversion."""
    rng = random.Random(f"conversions {seed}")
    for kind in in_rounds(CONVERT_ROUND, count):
        yield conversion_of_kind(rng, kind)
