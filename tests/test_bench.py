"""The times of the gate by crate are those that `rt` printed, what bench/run measures is accepted where it is meant to be, and the calls
keep to the stack that a rig controller has for them."""

import importlib.machinery
import importlib.util
import os
import re
import shutil
import subprocess
import sys
import tempfile
import unittest

ROOT = os.path.dirname(os.path.dirname(os.path.abspath(__file__)))
sys.path.insert(0, os.path.join(ROOT, "bench"))

import cases
import frames
import gate
import kit
import replay

# Lines as `rt ci` prints them, one of each form that counts, among others, with the seconds that bench/run puts before each.
PRINTED = """\
[   0 s] rt: rules is kept: an earlier run on this machine proved the same files over the same libraries
[   8 s] == counts
[   8 s] fn counts::smaller: proved
[   8 s] logic=proved functions=6 sum=064da1ca440f63e7 native=nat,char,string
[   8 s] rt: counts proved
[  11 s] rt: counts: its tests are proved
[  12 s] rt: reader NOT PROVED
[  12 s] rt: abi NOT PROVED: its library reader failed
[  12 s] rt: counts: trying its must-fail edits (3)
[  37 s] rt: program proved
[1060 s] rt: rules: 1 of its 2 must-fail edits were tried by an earlier run on this machine, and nothing that they stand on has changed
[1060 s] rt: must-fail rules/none.edit: NOT REFUSED: the crate is still proved with this edit (one that means the same as before ..)
[1060 s] rt: must-fail rules/any.edit: refused, as it must be: src/lib.rt:13:15: error: not proved
[1060 s] rt: must-fail counts/divides_by_m.edit: refused, as it must be: note: proofs/count_of/Answers.antt:13:15
[1060 s] rt: must-fail counts/leaves_out_a_task.edit: refused, as it must be
[1060 s] rt: must-fail counts/no_such_text.edit: BAD EDIT: an 'old:' text is not in src/lib.rt
[1061 s] rt: program ran, and wrote what its file stdout has
[1061 s] rt: FAILED: reader abi rules/none.edit
[1061 s] 7 passed, 3 failed
"""


class Gate(unittest.TestCase):

    def test_the_times_of_each_crate(self):
        found = gate.by_crate(PRINTED.splitlines(keepends=True))
        self.assertEqual({name: (times.kept, times.proof, times.tests, times.edits)
                          for name, times in found.items()},
                         {"rules": (True, None, None, 2), "counts": (False, 8, 11, 3),
                          "reader": (False, 12, None, 0), "program": (False, 37, None, 0)})

    def test_the_last_line_is_of_all(self):
        *_, last = gate.table(gate.by_crate(PRINTED.splitlines()))
        self.assertEqual(last.split(), "all 37 s 11 s 5".split())

    def test_a_row_of_each_sort(self):
        rows = {row.split()[0]: row.split()[1:] for row in gate.table(gate.by_crate(PRINTED.splitlines()))}
        self.assertEqual((rows["rules"], rows["counts"], rows["reader"]),
                         (["kept", "-", "2"], ["8", "s", "11", "s", "3"], ["12", "s", "-", "0"]))

    def test_a_log_without_marks_has_no_times(self):
        bare = [line.partition("] ")[2] for line in PRINTED.splitlines()]
        found = gate.by_crate(bare)
        self.assertEqual({name: (times.kept, times.proof, times.edits) for name, times in found.items()},
                         {"rules": (True, None, 2), "counts": (False, None, 3), "reader": (False, None, 0), "program": (False, None, 0)})

    def test_a_mark(self):
        self.assertEqual(gate.marked("rt: counts proved\n", 8), "[   8 s] rt: counts proved\n")

    def test_nothing_printed(self):
        self.assertEqual(gate.by_crate([]), {})


def bench_run():
    """bench/run as a module."""
    loader = importlib.machinery.SourceFileLoader("bench_run", os.path.join(ROOT, "bench", "run"))
    module = importlib.util.module_from_spec(importlib.util.spec_from_loader("bench_run", loader))
    loader.exec_module(module)
    return module


class Measured(unittest.TestCase):
    """A case that was refused would be measured as nearly nothing."""

    def test_the_cases_are_accepted(self):
        for name, case in bench_run().CASES:
            with self.subTest(case=name):
                self.assertIsNone(replay.fault_of_case(*case))
                # The checks alone are measured by a room that is too short for what passed them.
                self.assertEqual(replay.replay(*case, []).number, 13)

    def test_the_long_text_is_refused_at_its_end(self):
        text = bench_run().long_text()
        answer, _ = replay.read_for_program(text)
        self.assertEqual((len(text), answer.number, answer.values), (60_000, 12, [0]))


# At most so many bytes of stack: those of the first three are request P5's, and the header names all.
MOST = {"replay": 2200, "running set": 2200, "log": 2600, "counts": 100, "writer": 400, "reader": 17000,
        "converter": 17000}
RUNS = ("replay", "running set", "log")

# The calls that bench/measure.c and the header name otherwise than thrumcomb.h declares them.
NAMES = {"log": "check_log", "writer": "write", "reader": "read", "converter": "convert"}
TIMED = ["replay", "checks", "log", "reader", "writer", "converter"]


OBJDUMP = shutil.which("objdump")


def deepest_in(said):
    """By the name of each function that objdump shows: the most that its instructions have taken at one time, with where it returns to."""
    deepest, name = {}, None
    for line in said.splitlines():
        if start := re.match(r"[0-9a-f]+ <(.*)>:$", line):
            name, depth = start.group(1), 8
            deepest[name] = depth
        elif step := re.match(r"\s*[0-9a-f]+:\s+(push|pop|ret|sub|add)\b\s*(?:\$(-?0x[0-9a-f]+),%rsp$)?(.*)", line):
            word, size, rest = step.groups()
            if word == "ret":
                depth = 8
            elif word in ("push", "pop"):
                depth += 8 if word == "push" else -8
            elif size and rest == "":
                size = (int(size, 16) + 2**63) % 2**64 - 2**63
                depth += size if word == "sub" else -size
            deepest[name] = max(deepest[name], depth)
    return deepest


class Stack(unittest.TestCase):

    def test_a_frame(self):
        pushes = b"\x55\x41\x57\x41\x56\x53"
        self.assertEqual(frames.frame(b"\xc3"), 8)
        self.assertEqual(frames.frame(pushes + b"\x48\x83\xec\x28\xc3"), 8 + 4 * 8 + 40)
        self.assertEqual(frames.frame(pushes + b"\x48\x81\xec\xd8\x06\0\0\x48\x83\xec\x08"), 8 + 4 * 8 + 1752)

    def test_a_frame_that_is_taken_later(self):
        pushes, pops = b"\x55\x41\x57\x41\x56\x53", b"\x5b\x41\x5e\x41\x5f\x5d"
        early = b"\x85\xff\x74\x02\xc3\x90"
        self.assertEqual(frames.frame(early + pushes + b"\x48\x83\xec\x28\x90\x48\x83\xc4\x28" + pops + b"\xc3"), 8 + 4 * 8 + 40)
        self.assertEqual(frames.frame(early + b"\x48\x81\xec\xd8\x06\0\0\x90\x48\x81\xc4\xd8\x06\0\0\xe9\0\0\0\0"), 8 + 1752)
        self.assertEqual(frames.frame(early + b"\x50\x90\x58\xc3"), 8 + 8)

    def test_a_frame_of_128_bytes(self):
        self.assertEqual(frames.frame(b"\x53\x48\x83\xc4\x80\x90\x48\x83\xec\x80\x5b\xc3"), 8 + 8 + 128)
        self.assertEqual(frames.frame(b"\x74\x02\x53\x48\x83\xc4\x80\x90\x48\x83\xec\x80\x5b\xc3"), 8 + 8 + 128)

    def test_a_frame_over_a_page(self):
        page = b"\x48\x81\xec\0\x10\0\0" + frames.TOUCH
        self.assertEqual(frames.frame(b"\x55" + page + page + b"\x48\x81\xec\xa8\0\0\0\x90"), 8 + 8 + 2 * 4096 + 168)

    def test_the_deepest_path(self):
        found = {1: frames.Function("call", 100, {2, 3}, True), 2: frames.Function("wide", 50, set(), False),
                 3: frames.Function("thin", 10, {4}, False), 4: frames.Function("end", 45, set(), False)}
        self.assertEqual([f.name for f in frames.deepest(found, 1)], ["call", "thin", "end"])

    def test_the_frames_of_the_calls(self):
        paths = frames.paths(kit.archive())
        self.assertEqual(sorted(paths), ["thrumcomb_" + call for call in
                                         ("check_log", "convert", "counts", "read", "replay", "running_set", "write")])
        self.assertEqual([f.name for f in paths["thrumcomb_replay"]], ["thrumcomb_replay", "slots::walk"])
        for call, most in MOST.items():
            name = "thrumcomb_" + NAMES.get(call, call).replace(" ", "_")
            self.assertLess(sum(f.frame for f in paths[name]), most, name)

    @unittest.skipIf(OBJDUMP is None, "no objdump is found")
    def test_the_frames_are_those_of_a_disassembler(self):
        said = subprocess.run([OBJDUMP, "-d", "--no-show-raw-insn", kit.archive()], stdout=subprocess.PIPE, check=True, text=True).stdout
        with open(kit.archive(), "rb") as file:
            found = {f.name: f.frame for data in frames.members(file.read()) for f in frames.functions(data).values()}
        self.assertEqual(found, deepest_in(said))
        self.assertGreater(len(found), 7)

    def test_the_stack_that_the_calls_use(self):
        run = bench_run()
        case = run.CASES[2][1]
        with tempfile.TemporaryDirectory() as folder:
            sources = [os.path.join(ROOT, "bench", name) for name in ("measure.c", "replay.c", "text.c", "log.c")]
            program = kit.build(sources, folder, "measure", "-O3", "-DREPLAY_ONLY", "-I", os.path.join(ROOT, "bench"))
            printed = run.measured(program, case, cases.text_of(case), 1)
        self.assertEqual(re.findall(r"^([a-z]+): C .*, same answers$", printed, re.M), TIMED)
        used = {call: int(size) for call, size in re.findall(r"([a-z ]+) (\d+) bytes", printed)}
        used = {call.strip(): size for call, size in used.items()}
        self.assertEqual(sorted(used), ["converter", "counts", "log", "reader", "replay", "running set", "writer"])
        for call, most in MOST.items():
            self.assertLessEqual(used[call], most, call)
        for call in RUNS:
            # One run and a copy of it, with what goes with them: a smaller number would be a call that was refused.
            self.assertGreater(used[call], 1280, call)
        for call in ("reader", "converter"):
            # A table and a trace of the most numbers.
            self.assertGreater(used[call], 4 * (96 + 4000), call)

    def test_the_header_names_the_same(self):
        with open(os.path.join(kit.INCLUDE, "thrumcomb.h"), encoding="utf-8") as header:
            text = " ".join(header.read().replace("*", " ").split())
        said = re.search(r"Stack, in bytes at most: (.*?), which may", text).group(1)
        self.assertEqual({call.replace("log check", "log"): int(most.replace(",", ""))
                          for most, calls in re.findall(r"([\d,]+) for the ([a-z ]+)", said)
                          for call in calls.split(" and the ")}, MOST)


if __name__ == "__main__":
    unittest.main()
