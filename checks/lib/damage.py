"""damage.py PROGRAM FOLDER RUNS SEED JOBS: runs PROGRAM so often on damaged copies of FOLDER's
files elf.*, btf.base and btf.split, and of small ones of all kinds of hostile.py, with options that
change from run to run. The dice of SEED draw them, and those of the numbers behind it where the
runs are dealt to several JOBS."""
import collections
import glob
import multiprocessing
import os
import random
import re
import subprocess
import sys
import time

import hostile
from elf import sections

SECONDS = 10
# how a run may end: 2 is for words alone, and 4 for want of memory, which no small file needs
STATUSES = (0, 1, 3, 5)
LINE = re.compile(
    rb"pahole: (a|B|c|small|-): (image|\.debug_info|\.debug_abbrev|btf|table) \d+: "
    rb"error \d+( -?\d+){0,2}\n"
    rb"|pahole: no type [a-z0-9]+\n"
)
# the words for a damaged ELF file, for a damaged BTF file, and for a table over a base, whatever of
# the two is damaged
OF_ELF = [
    ["--btf_encode_detached=o"],
    ["--btf_encode_detached=o", "--funcs"],
    ["--btf_encode_detached=o", "-j4", "--funcs"],
    ["--btf_encode_detached=o", "--btf_base=B"],
    ["--btf_encode_detached=o", "--btf_base=B", "--funcs", "-j2"],
    [],
    ["-s", "-H", "1"],
    ["-C", "registry,point,word", "-c", "32"],
    ["-F", "dwarf", "-j3"],
]
OF_BTF = [
    ["-F", "btf"],
    ["-F", "btf", "-s", "-H", "1"],
    ["-F", "btf", "-C", "packet,registry", "-c", "16"],
]
OVER_BASE = [words + ["--btf_base=B"] for words in OF_BTF]

Input = collections.namedtuple("Input", "whole ranges")
# how many of what makes a hostile file, and which part of all runs has such a file
FEW, PART = 30, 0.25


def debug_ranges(elf):
    """The places of the sections `.debug_*`, as pairs of begin and end."""
    return [
        (one.offset, one.offset + one.size)
        for one in sections(elf)
        if one.name.startswith(".debug_") and one.size
    ]


def change_bytes(copy, place, dice):
    """1 to 8 bytes are others."""
    for _ in range(dice.randint(1, 8)):
        copy[place()] = dice.randrange(256)


def set_limit(copy, place, dice):
    """A number of 1 to 8 bytes is the least or the greatest, or one beside it."""
    size = dice.choice([1, 2, 4, 8])
    number = dice.choice([0, 1, 1 << 8 * size - 1]) - dice.randint(0, 1)
    at, order = place(), dice.choice(["little", "big"])
    copy[at : at + size] = (number % (1 << 8 * size)).to_bytes(size, order)[: len(copy) - at]


def move(copy, place, dice):
    """Up to 64 bytes are those of another place."""
    start, end, size = place(), place(), dice.randint(1, 64)
    size = min(size, len(copy) - max(start, end))
    copy[end : end + size] = copy[start : start + size]


def leave_out(copy, place, dice):
    """Up to 64 bytes are left out, so that all behind them stands elsewhere."""
    at = place()
    del copy[at : at + dice.randint(1, 64)]


def put_in(copy, place, dice):
    """Up to 64 bytes of 0 or 255 are put in."""
    at = place()
    copy[at:at] = bytes([dice.choice([0, 255])]) * dice.randint(1, 64)


def cut_off(copy, place, dice):
    del copy[dice.randrange(len(copy)) :]


HARMS = [change_bytes] * 5 + [set_limit, set_limit, move, leave_out, put_in, cut_off]


def damaged(file, dice):
    """A copy of the file that took one kind of harm; half of the harm is to debugging
    information."""
    copy, inside = bytearray(file.whole), file.ranges and dice.random() < 0.5

    def place():
        return dice.randrange(*(dice.choice(file.ranges) if inside else (0, len(copy))))

    dice.choice(HARMS)(copy, place, dice)
    return bytes(copy)


def wrong(status, complaint, printed, stored):
    """What is wrong with a run's end, or nothing."""
    if status not in STATUSES:
        return f"status {status}"
    if (stored or printed) and status != 0:
        return f"something is stored or printed on status {status}"
    if status == 0:
        return "a complaint on status 0" if complaint else None
    if not LINE.fullmatch(complaint):
        return f"the complaint {complaint[:200]!r}"
    return None


def read(path):
    with open(path, "rb") as file:
        return file.read()


def write(path, data):
    with open(path, "wb") as file:
        file.write(data)


def over(words, files):
    """The words of each run, with the files behind its options."""
    return [[*options, *files] for options in words]


def plans(folder):
    """What is run: the file that is damaged, the name under which it is read, the other files, and
    the lists of words."""
    base, split = (Input(read(f"{folder}/btf.{name}"), []) for name in ("base", "split"))
    of_elf = [*over(OF_ELF, ["a"]), *over(OF_ELF[:3], ["a", "c"]), *over(OF_ELF[:3], ["c", "a"])]
    for path in sorted(glob.glob(f"{folder}/elf.*")):
        elf = read(path)
        yield Input(elf, debug_ranges(elf)), "a", {"B": base.whole, "c": elf}, of_elf
    elf = read(f"{folder}/elf.1")
    yield base, "a", {}, over(OF_BTF, ["a"])
    yield split, "a", {"B": base.whole}, over(OVER_BASE, ["a"])
    yield base, "B", {"a": split.whole}, over(OVER_BASE, ["a"])
    yield base, "B", {"a": elf}, over([one for one in OF_ELF if "--btf_base=B" in one], ["a"])


def plans_of_made():
    """The same of files of the kinds that are made to be hostile."""
    for kind in hostile.KINDS:
        words, others = kind.words(FEW), {hostile.SMALL: hostile.SMALL_FILE}
        yield Input(kind.file(FEW), []), "a", others, [words, ["-j3", *words]]


def run(program, folder, words):
    """How a run ended, and what is wrong with that."""
    out = f"{folder}/o"
    if os.path.exists(out):
        os.remove(out)
    try:
        ended = subprocess.run([program, *words], cwd=folder, capture_output=True, timeout=SECONDS)
    except subprocess.TimeoutExpired:
        return None, f"no end within {SECONDS} seconds"
    is_stored = os.path.exists(out)
    return ended.returncode, wrong(ended.returncode, ended.stderr, ended.stdout, is_stored)


def part(program, source, runs, seed):
    """So many runs in a folder of their own: how often each status came, the longest time, and what
    is wrong."""
    folder = f"{source}/{seed}"
    os.mkdir(folder)
    dice = random.Random(seed)
    ends, longest, faults = collections.Counter(), 0, []
    real, made = list(plans(source)), list(plans_of_made())
    for number in range(runs):
        file, name, others, lists = dice.choice(made if dice.random() < PART else real)
        write(f"{folder}/{name}", damaged(file, dice))
        for other, data in others.items():
            write(f"{folder}/{other}", data)
        words, began = dice.choice(lists), time.monotonic()
        status, fault = run(program, folder, words)
        longest = max(longest, time.monotonic() - began)
        ends[status] += 1
        if fault:
            faults.append(f"failed damage {seed} {number} {' '.join(words)}: {fault}")
    return ends, longest, faults


def main():
    program, folder = os.path.abspath(sys.argv[1]), sys.argv[2]
    runs, seed, jobs = map(int, sys.argv[3:])
    parts = [(program, folder, runs // jobs, seed + job) for job in range(jobs)]
    with multiprocessing.Pool(jobs) as pool:
        ends, longest, faults = zip(*pool.starmap(part, parts))
    ends, wrong = sum(ends, collections.Counter()), sum(faults, [])
    counts = ", ".join(f"{ends[one]} with status {one}" for one in sorted(ends, key=str))
    told = f"{ends.total()} damaged copies, {counts}; the longest run took {max(longest):.1f} s"
    print(*wrong, f"{'told' if wrong else 'passed'} damage: {told}", sep="\n")
    return bool(wrong)


if __name__ == "__main__":
    sys.exit(main())
