"""ways.py PROGRAM FOLDER..: three tables on the programs that tools/real-programs.sh built in
each FOLDER. First how many types PROGRAM and Debian's tool pahole write alike, and how many
differ, by cause (tools/agree.py), for each program and for its objects, each alone; then the
names of the types that differ, by cause; and then the functions of the programs. What differs
without a known cause, and what one of the two refuses, is told on standard error."""
import collections
import glob
import multiprocessing
import os
import re
import subprocess
import sys
import tempfile

from agree import differing, differing_functions, head, tables, told_causes

PROGRAMS = ("sqlite3", "redis", "busybox", "git", "postgres")
TYPES = "| Program | Built by | Linked: the same | Others | Objects | Of these: the same | Others |"
CAUSES = "| Cause | Types |"
FUNCTIONS = (
    "| Program | Built by | The same | Here alone | Of these with a symbol "
    "| There alone | Another prototype |"
)
UNKNOWN = "no known cause"


def way(folder):
    """How the programs of a folder were built, by its name."""
    return re.sub(r"^(gcc|clang)(\d)$", r"\1, DWARF \2", os.path.basename(folder))


def print_table(header, rows):
    print(header, "|" + "---|" * (header.count("|") - 1), *rows, sep="\n")


def complain(path, what):
    print(f"failed ways {path}: {what[:300]}", file=sys.stderr, flush=True)


def symbols(path):
    """The names of a file's symbols that stand for its functions."""
    shown = subprocess.run(["nm", path], capture_output=True, text=True, check=True).stdout
    return {line.split()[-1] for line in shown.splitlines() if line.split()[-2] in "tTwWi"}


class Tally:
    """Over several files, how many types are the same, and the cause of each other one."""

    def __init__(self, names):
        """`names` gets the names of the types by each cause."""
        self.same, self.whys, self.names = 0, [], names

    def add(self, program, path, folder, options=()):
        """Counts a file, and answers its two tables; nothing where one of the programs refuses
        it."""
        ours, theirs, complaint = tables(program, path, folder, options)
        if ours is None or theirs is None:
            complain(path, complaint)
            self.whys.append("refusal")
            return None
        same, alone = differing(ours, theirs)
        self.same += same
        for where, told, why in alone:
            self.whys.append(why or UNKNOWN)
            self.names[why or UNKNOWN].add(head(told)[1])
            if why is None:
                complain(path, f"{where} {told}")
        return ours, theirs

    def cells(self):
        return f"{self.same:,} | {', '.join(told_causes(self.whys)) or 'none'}"


def cells_of_functions(path, ours, theirs):
    """The cells on the functions of a linked program."""
    same, parts = differing_functions(ours, theirs)
    other, here, there = (names for _, names in parts)
    return (
        f"{same:,} | {len(here):,} | {len(symbols(path) & set(here))} | {len(there)} | {len(other)}"
    )


def compared(program, one, folder):
    """What the two tools write of a program of a folder and of its objects: its row on types,
    its row on functions or nothing, and the names of the types that differ, by each cause."""
    names = collections.defaultdict(set)
    linked, start = f"{folder}/{one}", f"| {one} | {way(folder)} |"
    objects = sorted(glob.glob(f"{linked}.o.d/*.o"))
    whole, single = Tally(names), Tally(names)
    with tempfile.TemporaryDirectory() as scratch:
        found = os.path.exists(linked) and whole.add(program, linked, scratch, ["--funcs"])
        for path in objects:
            single.add(program, path, scratch)
    cells = whole.cells() if os.path.exists(linked) else "not built | "
    functions = f"{start} {cells_of_functions(linked, *found)} |" if found else None
    return f"{start} {cells} | {len(objects)} | {single.cells()} |", functions, dict(names)


def main():
    program, *folders = (os.path.abspath(word) for word in sys.argv[1:])
    built = [(program, one, folder) for one in PROGRAMS for folder in folders]
    with multiprocessing.Pool() as pool:
        found = pool.starmap(compared, built, chunksize=1)
    print_table(TYPES, [types for types, _, _ in found])
    names = collections.defaultdict(set)
    for _, _, differing_names in found:
        for why, some in differing_names.items():
            names[why] |= some
    rows = [
        f"| {why} | {', '.join(f'`{name}`' for name in sorted(some))} |"
        for why, some in sorted(names.items())
    ]
    print_table("\n" + CAUSES, rows)
    print_table("\n" + FUNCTIONS, [functions for _, functions, _ in found if functions])


if __name__ == "__main__":
    main()
