"""compilers.py PROGRAM FOLDER: structures of all kinds of bit fields, packed and aligned ones among
them, by each gcc and clang that is installed, by their own choice of DWARF and by versions 4 and
5. Sizes, places and bits, in the table and in the printed layouts, are what the compiler says."""
import glob
import os
import random
import re
import shutil
import subprocess
import sys

from btf import Member, structures
from compiler import says_of
from layouts import made_types, named, printed, wrong

COMPILER = re.compile(r"(\w+-linux-gnu\w*-)?(gcc|clang)(-\d+)?")
# those that Debian has: any other one that is installed is looked at, too
DEBIAN = (
    ["gcc", "clang-14", "clang-15", "clang-16", "clang-19"]
    + ["aarch64-linux-gnu-gcc", "arm-linux-gnueabihf-gcc", "i686-linux-gnu-gcc"]
    + ["mips-linux-gnu-gcc", "powerpc64-linux-gnu-gcc", "s390x-linux-gnu-gcc"]
)
# clang builds for all machines that there is a linker for
TARGETS = ["--target=aarch64-linux-gnu", "--target=powerpc64-linux-gnu", "--target=s390x-linux-gnu"]
WAYS = (["-g"], ["-g", "-gdwarf-4"], ["-g", "-gdwarf-5"])
# clang before 16 places `b` at the bit -1 of its storage, and `last` in DWARF 5 as version 4 does
FIELDS = """struct __attribute__((packed)) packed { unsigned a : 3, b : 30; } packed;
struct packet { unsigned char kind : 3, last : 1; } packet;
"""
NAMED = [named("struct packed", ["a:", "b:"]), named("struct packet", ["kind:", "last:"])]


def installed():
    """The compilers of this machine by their names, one for each program."""
    found = {}
    for folder in os.environ["PATH"].split(":"):
        for path in sorted(glob.glob(f"{folder}/*")):
            if COMPILER.fullmatch(os.path.basename(path)) and os.access(path, os.X_OK):
                found.setdefault(os.path.realpath(path), os.path.basename(path))
    return found


def without_wide(types, told):
    """What clang before 16 writes: a bit field that is as wide as its type is a plain member at
    the byte where it begins."""
    plain, said = [], {}
    for one in types:
        members = [(name, field and name not in one["wide"]) for name, field in one["members"]]
        plain.append({**one, "members": members})
        size, places, sizes = told[one["name"]]
        others = {name: places[name] for name in one["wide"]}
        said[one["name"]] = (
            size,
            {**places, **{name: Member(at.bit // 8 * 8, 0) for name, at in others.items()}},
            {**sizes, **{name: at.bits // 8 for name, at in others.items()}},
        )
    return plain, said


def fault(program, types, told):
    """What differs between the file `a`, its table and its layouts, and what the compiler says."""
    shown = subprocess.run([program, "a"], capture_output=True, text=True)
    stored = subprocess.run([program, "--btf_encode_detached=o", "a"], capture_output=True)
    if shown.returncode or stored.returncode:
        return f"status {shown.returncode} and {stored.returncode}, {shown.stderr!r}"
    with open("o", "rb") as file:
        table, layouts = structures(file.read()), printed(shown.stdout)
    for one in types:
        name = one["name"]
        if name not in table or name not in layouts:
            return f"no {name}"
        size, places, sizes = told[name]
        had = table[name][0], {member: table[name][1].get(member) for member in places}
        if had != (size, places):
            return f"{name} is {had}, the compiler says {(size, places)}"
        rows = [(place.bit, place.bits or 8 * sizes[member]) for member, place in places.items()]
        why = wrong(one, (size, rows), layouts[name])
        if why:
            return f"{name}: {why}"
    return None


def verdict(program, compiler, flags, types, version):
    """What came of a compiler with the flags for a machine."""
    asked = {
        one["c"]: " ".join(name + ":" * field for name, field in one["members"] if name)
        for one in types
    }
    with open("made.c") as file:
        told = says_of(compiler, file.read(), asked, flags)
    if told is None:
        return "skipped", "it can't be asked"
    if "clang" in compiler and version < 16:
        types, told = without_wide(types, told)
    for way in WAYS:
        words = [compiler, *way, *flags, "-w", "-shared", "-fPIC", "-nostdlib", "-o", "a", "made.c"]
        if subprocess.run(words, capture_output=True).returncode:
            return "skipped", "there is no linker for it"
        why = fault(program, types, told)
        if why:
            return "failed", f"{' '.join(way)}: {why}"
    count = sum(len(places) for _, places, _ in told.values())
    return "passed", f"{len(told)} structures and unions with {count} members"


def main():
    program, folder = (os.path.abspath(word) for word in sys.argv[1:3])
    os.chdir(folder)
    text, types = made_types(random.Random(20261202))
    with open("made.c", "w") as file:
        file.write(FIELDS + text)
    for name in DEBIAN:
        if not shutil.which(name):
            print(f"skipped programs structures by {name}: it is not installed")
    for compiler in sorted(installed().values()):
        words = [compiler, "-dumpversion"]
        version = subprocess.run(words, capture_output=True, text=True).stdout.strip()
        targets = TARGETS if "clang" in compiler else []
        for machine in [""] if "linux-gnu" in compiler else ["", "-m32", *targets]:
            ended, why = verdict(
                program, compiler, machine.split(), types + NAMED, int(version.split(".")[0])
            )
            name = " ".join([compiler, version, machine]).strip()
            print(f"{ended} programs structures by {name}: {why}", flush=True)


main()
