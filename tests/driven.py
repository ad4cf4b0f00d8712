"""Makes calls of the archive of the crate thrumcomb and holds all that they did.

A call is a pair (name, args): the name and the arguments of a call in
replay.py.  What it must do is a replay.Answer; the number returned, the place,
the results and every lent slice are compared whole, with the guard words about
each: a refusal writes its place and nothing else, and a call that gives
results leaves the place alone.

archive_drive.c makes the calls, and says how one is written and what it prints.
"""

import collections
import functools
import os
import subprocess
import tempfile

import kit
import replay

EXEC = os.path.join(kit.ROOT, "bin", "exec")

# Each call of replay.py: its name in archive_drive.c, and the kinds of its
# arguments: n a number, w a slice of numbers, b a slice of bytes.
CALLS = {
    "counts": ("counts", "nww"),
    "replay": ("replay", "nnwnww"),
    "running_set": ("running_set", "nnwnwn"),
    "read_case": ("read", "bww"),
    "write_case": ("write", "nnwnwb"),
    "check_log": ("check_log", "nnwnwb"),
    "convert": ("convert", "bb"),
}

# What stands about everything lent, and all over place and results before a
# call, as in archive_drive.c.
GUARD = list(range(2654435769, 2654435769 + 8))
GUARD_BYTES = bytes(range(185, 185 + 8))
PLACE = list(range(2654435769, 2654435769 + 8 + 1 + 8))
RESULTS = list(range(11400714819323198485, 11400714819323198485 + 8 + 5 + 8))


# ---------------------------------------------------------------------------
# Calls as the driver reads them


def run_from(numbers, i):
    """How many numbers from place i on are each one more than the one before."""
    first, rest = numbers[i], len(numbers) - i
    if numbers[-1] == first + rest - 1 and \
            numbers[i:] == list(range(first, first + rest)):
        return rest
    count = 1
    while numbers[i + count] == first + count:
        count += 1
    return count


def words(numbers):
    """The numbers, each after a blank; `7+3` stands for 7, 8, 9."""
    said = []
    i = 0
    while i < len(numbers):
        count = run_from(numbers, i)
        said.append(b" %d" % numbers[i] if count == 1
                    else b" %d+%d" % (numbers[i], count))
        i += count
    return b"".join(said)


def written_argument(kind, value):
    if kind == "n":
        return b" n%d" % value
    if kind == "b":
        return b" b%d %s" % (len(value), bytes(value))
    return b" w%d%s" % (len(value), words(value))


def written_call(name, args):
    """One call, as the driver reads it."""
    called, kinds = CALLS[name]
    if len(kinds) != len(args):
        raise ValueError(f"{name} has {len(kinds)} arguments")
    return called.encode() + b"".join(map(written_argument, kinds, args)) + b"\n"


# ---------------------------------------------------------------------------
# What the calls did


def with_values(memory, values):
    """The memory with the values behind its first guard words."""
    return memory[:8] + list(values) + memory[8 + len(values):]


def guarded(kind, held):
    if kind == "b":
        return b" " + (GUARD_BYTES + bytes(held) + GUARD_BYTES).hex().encode()
    return words(GUARD + list(held) + GUARD)


def line_for(call, answer):
    """The line that the driver prints where the call gives the answer."""
    name, args = call
    _, kinds = CALLS[name]
    slices = [(kind, held) for kind, held in zip(kinds, args) if kind != "n"]
    # The rooms are the last of the slices; those before are only read.
    only_read = len(slices) - len(answer.rooms)
    later = [held for _, held in slices[:only_read]] + list(answer.rooms)
    place, results = PLACE, RESULTS
    if answer.number == 0:
        results = with_values(RESULTS, answer.values)
    else:
        place = with_values(PLACE, answer.values)
    parts = [b"%d" % answer.number, words(place),
             b"".join(b" %d" % result for result in results)]
    parts += [guarded(kind, held) for (kind, _), held in zip(slices, later)]
    return b" ;".join(parts)


def difference(did, must):
    """Which part of what a call did is not as it must be, or None."""
    names = ["number", "place", "results"]
    did, must = did.split(b" ;"), must.split(b" ;")
    for at in range(max(len(did), len(must))):
        if did[at:at + 1] != must[at:at + 1]:
            name = names[at] if at < 3 else f"slice {at - 2}"
            return (f"{name}\narchive: {shortened(did[at:at + 1])}\n"
                    f"right:   {shortened(must[at:at + 1])}")
    return None


# ---------------------------------------------------------------------------
# The driver, and what is held


@functools.lru_cache(maxsize=None)
def driver():
    """The built driver's path, and the folder that is there as long as it is used."""
    folder = tempfile.TemporaryDirectory()
    source = os.path.join(kit.HERE, "archive_drive.c")
    return kit.build([source], folder.name, "archive_drive", "-O1"), folder


def run_driver(said):
    """The status of the driver, what it printed for an input, and its errors."""
    program, _ = driver()
    with tempfile.TemporaryFile() as given, tempfile.TemporaryFile() as got:
        given.write(said)
        given.seek(0)
        done = subprocess.run([EXEC, program], stdin=given, stdout=got,
                              stderr=subprocess.PIPE)
        got.seek(0)
        return done.returncode, got.read(), done.stderr


def hold_to(test, calls, answers):
    """Holds the archive to the answers, which are those of the calls in order."""
    test.assertEqual(len(calls), len(answers))
    status, output, errors = run_driver(b"".join(written_call(*call) for call in calls))
    test.assertEqual((status, errors), (0, b""))
    lines = output.splitlines()
    test.assertEqual(len(lines), len(calls))
    for call, answer, line in zip(calls, answers, lines):
        must = line_for(call, answer)
        if line != must:
            test.fail(f"{shortened(call)}: {difference(line, must)}")


def hold(test, calls):
    """Holds the archive to replay.py; returns the answers, which are the same."""
    calls = list(calls)
    answers = [getattr(replay, name)(*args) for name, args in calls]
    hold_to(test, calls, answers)
    return answers


def shortened(call):
    said = repr(call)
    return said if len(said) <= 2_000 else said[:2_000] + " .."


def tally(calls, answers):
    """How many answers of each number each call gave."""
    seen = collections.defaultdict(collections.Counter)
    for (name, _), answer in zip(calls, answers):
        seen[name][answer.number] += 1
    return seen


def print_tally(title, seen):
    print(title)
    for name, numbers in seen.items():
        told = " ".join(f"{number}:{count}"
                        for number, count in sorted(numbers.items()))
        print(f"  {name} {sum(numbers.values())} calls, by number: {told}")
