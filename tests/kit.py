"""Builds the program and the archive of the crate thrumcomb by `rt`, and C programs over the archive with the kit's own tools.

These are compiled and linked for the same target as the archive, so nothing has
to be installed.  The kit has no C headers: the few types that are taken from
them are put beside the program for the build.
"""

import functools
import glob
import os
import shutil
import subprocess

HERE = os.path.dirname(os.path.abspath(__file__))
ROOT = os.path.dirname(HERE)
CRATES = os.path.join(ROOT, "crates")
INCLUDE = os.path.join(CRATES, "thrumcomb", "include")
ARCHIVE = os.path.join(CRATES, "thrumcomb", "out", "libthrumcomb.a")
PROGRAM = os.path.join(CRATES, "program", "out", "program")
TARGET = "x86_64-unknown-linux-gnu"

HEADERS = {
    "stddef.h": "typedef __SIZE_TYPE__ size_t;\n",
    "stdint.h": "typedef __UINT8_TYPE__ uint8_t;\n"
                "typedef __UINT32_TYPE__ uint32_t;\n"
                "typedef __UINT64_TYPE__ uint64_t;\n"
                "#define UINT32_MAX __UINT32_MAX__\n",
}


def kit():
    """The folder of the kit."""
    rt = shutil.which("rt")
    if rt is None:
        raise RuntimeError("rt is not found")
    return os.path.dirname(os.path.dirname(os.path.realpath(rt)))


def once(make):
    """What is made is kept, and so is why it could not be: a build that failed is not tried again."""
    kept = {}

    @functools.wraps(make)
    def given(*args):
        if args not in kept:
            try:
                kept[args] = make(*args), None
            except RuntimeError as fault:
                kept[args] = None, str(fault)
        made, fault = kept[args]
        if fault is not None:
            raise RuntimeError(fault)
        return made

    return given


def run(*words, crate=None):
    """Runs a command to its end, in the folder of a crate where one is given; what it printed is in the failure."""
    done = subprocess.run(words, cwd=os.path.join(CRATES, crate) if crate else ROOT, stdin=subprocess.DEVNULL,
                          stdout=subprocess.PIPE, stderr=subprocess.STDOUT, text=True)
    if done.returncode != 0:
        raise RuntimeError(f"{' '.join(words)} ended with status "
                           f"{done.returncode}:\n{done.stdout}")
    return done.stdout


@once
def program():
    """The path of the program, which `rt` proves and builds where it is not known to be that of the sources as they are."""
    run("rt", "run", "--", "help", crate="program")
    return PROGRAM


@once
def check_of(crate):
    """What the check of a crate says."""
    return run("rt", "check", crate=crate)


def archive_is_current():
    if not os.path.exists(ARCHIVE):
        return False
    made = os.path.getmtime(ARCHIVE)
    sources = glob.glob(os.path.join(CRATES, "*", "src", "*.rt"))
    return all(os.path.getmtime(source) <= made for source in sources)


@once
def archive():
    """The path of the archive, made where it is missing or older than a source."""
    if not archive_is_current():
        run("rt", "lib", crate="thrumcomb")
    return ARCHIVE


def build(sources, folder, name, *flags):
    """Compiles C sources and links them with the archive; gives the program's path."""
    for header, text in HEADERS.items():
        with open(os.path.join(folder, header), "w") as file:
            file.write(text)
    tools = os.path.join(kit(), "toolchain")
    objects = []
    for source in sources:
        compiled = os.path.join(folder, os.path.basename(source) + ".o")
        run(os.path.join(tools, "bin", "clang"), "--target=" + TARGET,
            "-std=c99", "-pedantic", "-Wall", "-Wextra", "-Werror",
            "-nostdinc", "-isystem", folder, "-I", INCLUDE, *flags,
            "-c", source, "-o", compiled)
        objects.append(compiled)
    program_there = os.path.join(folder, name)
    run(os.path.join(kit(), "bin", "rattle-link"), "--target", TARGET,
        "--toolchain", tools, "-o", program_there, *objects, archive())
    return program_there
