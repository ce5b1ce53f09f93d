"""peak.py PROGRAM FOLDER: runs over a file of each kind of hostile.py, and over larger ones of
those that take most memory for each byte, by 1, 4 and 64 workers. A kind fails where the peak of
memory passes BASE and so many bytes for each byte of the file, or where status, complaint, table or
text differ from those of one worker."""
import hashlib
import multiprocessing
import os
import subprocess
import sys

import hostile

BASE = 32_000_000
WORKERS = (1, 4, 64)
# kinds, how many of what makes each, and the bytes of memory for each byte of the file
LARGE = [
    ("subroutine types in each other", hostile.subroutine_types_in_each_other, 1_000_000, 100),
    ("subroutine types that are left open", hostile.open_subroutine_types, 1_000_000, 190),
    ("structures in each other", hostile.structures_in_each_other, 500_000, 150),
    ("arrays in each other", hostile.arrays_in_each_other, 500_000, 70),
    ("pointers of one byte", hostile.pointers_of_one_byte, 1_000_000, 175),
    ("units of one table of abbreviations", hostile.units_of_one_table, 125_000, 160),
    ("blocks in each other", hostile.blocks, 500_000, 40),
]
# with LARGE=1 in the environment: more types than a table holds, which is error 111
if os.environ.get("LARGE"):
    LARGE.append(("more pointers than types", hostile.pointers_of_one_byte, 8_388_700, 175))
# the same of those of hostile.py, of which each is four times the least one, where it can be
OF_ALL, TIMES = 100, 4


def kinds():
    """The name of each kind, what makes its file and of how many, the words of a run, and the bytes
    of memory for each byte of the file."""
    for name, make, count, bound in LARGE:
        yield name, make, count, hostile.encoding(count), bound
    for kind in hostile.KINDS:
        count = kind.least * (TIMES if kind.has_larger else 1)
        yield kind.name, kind.file, count, kind.words(count), OF_ALL


def write(path, make, count):
    with open(path, "wb") as it:
        it.write(make(count))


def made(path, make, count):
    """Makes a file in a process of its own, and tells its size: what this process takes counts for
    those that it starts, too."""
    maker = multiprocessing.Process(target=write, args=(path, make, count))
    maker.start()
    maker.join()
    return os.path.getsize(path)


def digest(path):
    told = hashlib.sha256()
    with open(path, "rb") as it:
        while part := it.read(1 << 16):
            told.update(part)
    return told.digest()


def run(program, folder, words):
    """The peak of memory in bytes, the status, and what came of the run."""
    paths = [os.path.join(folder, name) for name in ("o", "printed", "said")]
    if os.path.exists(paths[0]):
        os.unlink(paths[0])
    with open(paths[1], "wb") as printed, open(paths[2], "wb") as said:
        child = subprocess.Popen(
            [program, *words], cwd=folder, stdin=subprocess.DEVNULL, stdout=printed, stderr=said
        )
        _, status, used = os.wait4(child.pid, 0)
    ended = os.waitstatus_to_exitcode(status)
    left = [digest(path) for path in paths if os.path.exists(path)]
    return used.ru_maxrss * 1024, ended, (ended, left)


def check(program, folder, kind):
    name, make, count, words, bound = kind
    size = made(os.path.join(folder, "a"), make, count)
    most, told, first, faults = BASE + bound * size, [], None, []
    for workers in WORKERS:
        peak, status, left = run(program, folder, [f"-j{workers}", *words])
        told.append(f"-j{workers}: {peak // 1_000_000} MB")
        first = first or left
        if left != first:
            faults.append(f"-j{workers} ends otherwise")
        if status not in (0, 1, 5):
            faults.append(f"-j{workers} ends with {status}")
        if peak > most:
            faults.append(f"-j{workers} takes more than {most // 1_000_000} MB")
    how = f"failed memory {name}: {'; '.join(faults)};" if faults else f"passed memory {name}:"
    return f"{how} {size:,} bytes, status {first[0]}, {', '.join(told)}"


def main():
    program, folder = sys.argv[1:]
    write(os.path.join(folder, hostile.SMALL), lambda _: hostile.SMALL_FILE, 1)
    for kind in kinds():
        print(check(os.path.abspath(program), folder, kind), flush=True)


if __name__ == "__main__":
    main()
