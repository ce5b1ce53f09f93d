"""workers.py PROGRAM FOLDER: whether the built program answers the same bytes for each number of
workers, on a program of many units that is made in FOLDER, run after run, and with more runs at
once than there are processors."""
import concurrent.futures
import os
import subprocess
import sys

from compiler import build
from larger import larger

WORKERS, TIMES = (1, 2, 3, 7, 256), 20
# what is asked for, and of which files
ASKED = [
    ("table", ["--btf_encode_detached=OUT"], ["linked"]),
    ("table with functions", ["--btf_encode_detached=OUT", "--funcs"], ["linked"]),
    ("table of objects", ["--btf_encode_detached=OUT"], ["3.o", "0.o", "7.o"]),
    ("layouts", ["-s"], ["linked"]),
    ("refusal", ["--btf_encode_detached=OUT"], ["0.o", "refused", "also-refused"]),
]


def answer(program, words, files, workers, number):
    """Status, what was printed and complained, and the stored bytes."""
    out = f"out-{number}"
    words = [word.replace("OUT", out) for word in words]
    done = subprocess.run(
        [program, *words, f"-j{workers}", *files], capture_output=True, timeout=120, check=False
    )
    stored = None
    if os.path.exists(out):
        with open(out, "rb") as file:
            stored = file.read()
        os.remove(out)
    return done.returncode, done.stdout, done.stderr, stored


# where the code of a unit's root stands in .debug_info: behind the header of version 5 (DWARF 5,
# section 7.5.1.1)
ROOT = 12


def damage(source, target):
    """A copy of an object whose unit is refused: no abbreviation has its root's code."""
    with open(source, "rb") as file:
        contents = bytearray(file.read())
    headers = subprocess.run(
        ["readelf", "-SW", source], capture_output=True, text=True, check=True
    ).stdout.splitlines()
    fields = next(line.split("]", 1)[1].split() for line in headers if " .debug_info " in line)
    contents[int(fields[3], 16) + ROOT] = 0x7F
    with open(target, "wb") as file:
        file.write(contents)


def verdict(program, words, files):
    """Whether all runs of some words answer the same."""
    wanted = answer(program, words, files, 1, 0)
    runs = [(workers, number) for number in range(TIMES) for workers in WORKERS]
    in_order = [answer(program, words, files, *run) for run in runs]
    with concurrent.futures.ThreadPoolExecutor(2 * os.cpu_count()) as pool:
        at_once = list(
            pool.map(lambda run: answer(program, words, files, run[0], f"{run[0]}-{run[1]}"), runs)
        )
    other = next(
        (run for run, told in zip(runs + runs, in_order + at_once) if told != wanted), None
    )
    if other:
        return "failed", f"-j{other[0]} answers other bytes than -j1"
    size = len(wanted[3] if wanted[3] is not None else wanted[1] or wanted[2])
    how = f"by each of {len(WORKERS)} numbers of workers, {2 * len(runs)} runs"
    return "passed", f"status {wanted[0]}, {size} bytes {how}"


def main():
    program, folder = (os.path.abspath(word) for word in sys.argv[1:3])
    os.chdir(folder)
    sources = larger()
    for out, words in [
        *((f"{n}.o", [source, "-c"]) for n, source in enumerate(sources)),
        ("linked", sources),
    ]:
        if not build("cc", [], out, words):
            print(f"skipped workers: the compiler can't build {out}")
            return
    damage("1.o", "refused")
    damage("2.o", "also-refused")
    for name, words, files in ASKED:
        kind, told = verdict(program, words, files)
        print(f"{kind} workers {name}: {told}", flush=True)


main()
