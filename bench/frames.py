"""The stack of each public call, by the frames on its deepest path.

Read off the archive's machine code (x86-64): what a function pushes and takes
off the stack pointer before it does anything else, or gives back before it
ends, where that is more (a function may do some work first and then take its
frame); eight bytes for where it returns to; and which functions it calls.  Each
function has a section of its own, and a call to another has a relocation, so no
disassembler is needed; tests/test_bench.py holds the frames to one where there
is one.  What C's library takes, as in a copy of memory, is not counted, nor
arguments that are passed on the stack: bench/measure.c measures the whole.
"""

import collections
import re
import struct

PUSHED = 8
PUSHES = range(0x50, 0x58)
TAKE, TAKE_FEW = b"\x48\x81\xec", b"\x48\x83\xec"
# 128 bytes are taken by adding -128, and given back by taking it: that is the shorter way.
TAKE_128, GIVE_128 = b"\x48\x83\xc4\x80", b"\x48\x83\xec\x80"
# What stands before a return or a last jump: what is added to the stack pointer, and what is popped.
GIVEN = re.compile(rb"(?:\x48\x83\xc4([\0-\x7f])|\x48\x81\xc4(.{4})|(\x48\x83\xec\x80))?"
                   rb"((?:[\x58\x59\x5b\x5d]|\x41[\x5c-\x5f])*)[\xc3\xe9\xeb]", re.DOTALL)
TOUCH = b"\x48\xc7\x04\x24\0\0\0\0"
CALL, JUMP = 0xE8, 0xE9
FUNCTION, SECTION, RELOCATIONS, GLOBAL = 2, 3, 4, 1
PC32, PLT32 = 2, 4

Function = collections.namedtuple("Function", "name frame calls exported")


def members(archive):
    """The files of an archive that are objects."""
    at = 8
    while at + 60 <= len(archive):
        size = int(archive[at + 48:at + 58])
        data = archive[at + 60:at + 60 + size]
        if data[:4] == b"\x7fELF":
            yield data
        at += 60 + size + size % 2


def taken(code):
    """The bytes that a function takes before it does anything else.  Many are taken piece by piece, each touched."""
    at, size = 0, 0
    while code[at] in PUSHES or (code[at] == 0x41 and code[at + 1] in PUSHES):
        at += 2 if code[at] == 0x41 else 1
        size += PUSHED
    if code[at:at + 4] == TAKE_128:
        return size + 128
    while code[at:at + 3] in (TAKE, TAKE_FEW) and code[at:at + 4] != GIVE_128:
        many = code[at:at + 3] == TAKE
        size += struct.unpack_from("<I" if many else "<B", code, at + 3)[0]
        at += 7 if many else 4
        if code[at:at + 8] != TOUCH:
            break
        at += 8
    return size


def given_back(code):
    """The most bytes that a function gives back where it ends."""
    most = 0
    for few, many, eighth, pops in GIVEN.findall(code):
        added = few[0] if few else struct.unpack("<I", many)[0] if many else 128 if eighth else 0
        most = max(most, added + PUSHED * len(pops.replace(b"\x41", b"")))
    return most


def frame(code):
    """The bytes of a function's frame, with where it returns to."""
    return PUSHED + max(taken(code), given_back(code))


def functions(data):
    """The functions of an object by their section: name, frame, the sections that they call, whether they are exported."""
    offset = struct.unpack_from("<Q", data, 40)[0]
    count = struct.unpack_from("<H", data, 60)[0]
    sections = [struct.unpack_from("<IIQQQQIIQQ", data, offset + 64 * i) for i in range(count)]
    table = next(s for s in sections if s[1] == 2)
    names = sections[table[6]][4]
    symbols = [struct.unpack_from("<IBBHQQ", data, table[4] + 24 * i) for i in range(table[5] // 24)]
    found = {}
    for name, info, _, section, _, _ in symbols:
        if info & 15 == FUNCTION and section:
            code = data[sections[section][4]:sections[section][4] + sections[section][5]]
            text = data[names + name:data.index(b"\0", names + name)].decode()
            found[section] = Function(text, frame(code), set(), info >> 4 == GLOBAL)
    for section in (s for s in sections if s[1] == RELOCATIONS and s[7] in found):
        start = sections[section[7]][4]
        for at in range(section[4], section[4] + section[5], 24):
            place, info, _ = struct.unpack_from("<QQq", data, at)
            target = symbols[info >> 32][3]
            if info & 0xFFFFFFFF in (PC32, PLT32) and data[start + place - 1] in (CALL, JUMP) and target in found:
                found[section[7]].calls.add(target)
    return found


def deepest(found, section):
    """The functions on the deepest path from a function, itself first."""
    paths = [deepest(found, callee) for callee in found[section].calls]
    return [found[section]] + max(paths, key=lambda path: sum(f.frame for f in path), default=[])


def paths(archive):
    """The deepest path of each exported function of an archive, by its name."""
    with open(archive, "rb") as file:
        for data in members(file.read()):
            found = functions(data)
            return {f.name: deepest(found, section) for section, f in found.items() if f.exported}
    return {}


def lines(archive):
    for name, path in sorted(paths(archive).items()):
        yield f"{name}: {sum(f.frame for f in path):,} bytes: " + ", ".join(f"{f.name} {f.frame:,}" for f in path)
