"""measure.py PROGRAM ROOT FOLDER RUNS [VMLINUX]: every number of README.md's table and of the
tables of docs/BENCHMARKS.md. Each row is a run of PROGRAM, or of dwarves' pahole, over an input
that is found on this machine or made in FOLDER: its time, its memory, and what came of it. Prints
the rows as a table, with the machine and the tools, then README.md's table and how the programs
stand to each other; and a line `skipped NAME: ..` or `failed NAME: ..` on standard error for a row
that there is not. NEWEST is the path of a newer pahole to measure beside the one that is installed,
MODULES the folder of the kernel's modules, where that isn't beside it, REAL that of other programs;
with MORE=1 there are rows that no page has."""
import collections
import glob
import json
import os
import platform
import re
import shlex
import shutil
import statistics
import subprocess
import sys
import time

sys.path.append(os.path.join(os.path.dirname(os.path.abspath(__file__)), "..", "checks", "lib"))
import hostile
from btf import KINDS as BTF_KINDS, count, kinds
from made import Made

KERNELS = "/usr/lib/debug/boot/vmlinux-*"
PACKAGE = (
    "linux-image-6.1.0-*-amd64-dbg of Debian 12 has one of 633 MB; a path is taken too: "
    "tools/measure.sh VMLINUX"
)
OWN = "/sys/kernel/btf/vmlinux"
TIMER = "/usr/bin/time"

Run = collections.namedtuple("Run", "wall used memory")
Row = collections.namedtuple("Row", "what given words")
Peer = collections.namedtuple("Peer", "name path")
# what each made input shows; its numbers are counted
MADE_ROWS = {
    "apart": "units whose types all differ",
    "alike": "units with the same types",
    "nested-20000": "20,000 structures in each other",
    "nested-200000": "200,000 structures in each other",
    "flat": "one large unit",
    "wide": "the widest structure, 65,535 members",
}
WIDE = "the layout of that structure"
KERNEL, FUNCS = "a kernel, types alone", "a kernel with functions"
KERNEL_LAYOUT = "a layout of a kernel"
TABLE = "the layouts of a running kernel's BTF"
OVER = "a program over that BTF"
ONE = "one thread"
# modules of a kernel, which are encoded over its table
MODULES = ["amdgpu.ko", "xfs.ko"]
MADE = "a made input of 2,100,224 types"
MADE_NUMBER, MADE_LINE = 8388607, b"units 1024, entries 2100224, types 16387, bytes 398366\n"
# files over which the work grows with the square, with so many of what makes each; whether dwarves'
# pahole is measured, too
SQUARES = {
    "structures of one long name": (10_000, True),
    "units at different offsets of one table": (5_000, True),
    "relocations of the same bytes": (10_000, True),
    "layouts of typedefs of one structure": (2_000, False),
}
said, taken = [], {}
MORE = os.environ.get("MORE")


def say(line):
    """Tells a row that there is not."""
    said.append(line)
    print(line, file=sys.stderr, flush=True)


def run_once(words, folder):
    """A run's time, and the most memory that it had. Where /usr/bin/time is missing, memory
    below that of this program isn't seen."""
    note, timer = f"{folder}/time", []
    if os.access(TIMER, os.X_OK):
        timer = [TIMER, "-q", "-o", note, "-f", "%M"]
    with open(f"{folder}/printed", "wb") as out, open(f"{folder}/complaint", "wb") as err:
        begin = time.perf_counter()
        process = subprocess.Popen(
            [*timer, *words], cwd=folder, stdin=subprocess.DEVNULL, stdout=out, stderr=err
        )
        _, status, usage = os.wait4(process.pid, 0)
        wall = time.perf_counter() - begin
    process.returncode = os.waitstatus_to_exitcode(status)
    memory = usage.ru_maxrss
    if timer:
        with open(note) as file:
            memory = int(file.read().split()[-1])
    return process.returncode, Run(wall, usage.ru_utime + usage.ru_stime, 1024 * memory)


def measure(words, folder, runs):
    """The status of a first run, its memory, and the times of `runs` more by hyperfine, or else
    the median of as many; with one run those of the first."""
    status, first = run_once(words, folder)
    if status != 0 or runs == 1:
        return status, first
    if shutil.which("hyperfine"):
        told = f"{folder}/told"
        command = ["hyperfine", "-N", "--runs", str(runs), "--export-json", told, shlex.join(words)]
        subprocess.run(
            command, cwd=folder, stdout=subprocess.DEVNULL, stderr=subprocess.DEVNULL, check=True
        )
        with open(told) as file:
            one = json.load(file)["results"][0]
        return 0, Run(one["median"], one["user"] + one["system"], first.memory)
    more = [run_once(words, folder)[1] for _ in range(runs)]
    return 0, Run(
        statistics.median(one.wall for one in more),
        statistics.median(one.used for one in more),
        first.memory,
    )


def number(value):
    return f"{value:,}"


def seconds(value):
    return f"{value:.1f} s" if value >= 10 else f"{value:.2f} s"


def read(path):
    with open(path, "rb") as file:
        return file.read()


def outcome(folder):
    """What a run stored, or else what it printed."""
    stored = f"{folder}/o"
    if os.path.exists(stored):
        table = read(stored)
        return f"{number(count(table))} types, {number(kinds(table)['STRUCT'])} structures"
    printed = read(f"{folder}/printed")
    lines = printed.count(b"\n")
    return f"{number(lines)} line{'s' * (lines != 1)}"


def show(row, folder, runs, look=lambda row: None):
    """Prints a row, and looks at what was stored; answers the table that was stored."""
    stored = f"{folder}/o"
    if os.path.exists(stored):
        os.remove(stored)
    status, run = measure(row.words, folder, runs)
    if status != 0:
        complaint = read(f"{folder}/complaint").decode(errors="replace").strip()[:200]
        say(f"failed {row.what}: status {status}, {complaint}")
        return b""
    cells = [
        row.what,
        row.given,
        seconds(run.wall),
        seconds(run.used),
        f"{number(round(run.memory / 1e6))} MB",
        outcome(folder),
    ]
    print(f"| {' | '.join(cells)} |", flush=True)
    taken[row.what] = run
    look(row)
    return read(stored) if os.path.exists(stored) else b""


def tool(words, pattern=r"(.*)"):
    """A tool's first line about itself."""
    if not shutil.which(words[0]):
        return None
    found = re.match(pattern, subprocess.run(words, capture_output=True, text=True).stdout.strip())
    return found[1] if found else None


def installed_peers():
    """dwarves' pahole that is installed, and the one that is named."""
    for path in ("pahole", os.environ.get("NEWEST", "")):
        version = path and tool([path, "--version"], r"v(\S+)")
        if version:
            yield Peer(f"dwarves {version}", path)
        else:
            say(f"skipped dwarves {path or 'of NEWEST'}: it is not there")


def machine(program, runs, peers):
    """What this was measured on, and with."""
    model = re.search(r"^model name\s*:\s*(.*)$", read("/proc/cpuinfo").decode(), re.M)
    memory = int(re.search(r"MemTotal:\s*(\d+)", read("/proc/meminfo").decode())[1]) * 1024
    told = {
        "": tool(["rt", "version"]),
        "Python ": platform.python_version(),
        "hyperfine ": tool(["hyperfine", "--version"], r"hyperfine (\S+)"),
        **{peer.name: "" for peer in peers},
    }
    name = model[1] if model else platform.machine()
    load = os.getloadavg()[0]
    print(
        f"Machine: {os.cpu_count()} processors ({name}), {round(memory / 1e9)} GB, "
        f"Linux {platform.release()}, at a load of {load:.1f}."
    )
    print(f"Tools: {', '.join(what + it for what, it in told.items() if it is not None)}.")
    each = "that of one run" if runs == 1 else f"the median of {runs} runs"
    print(f"The program has {number(os.path.getsize(program))} bytes. Each time is {each}.")
    print()
    print("| What | Input | Time | CPU time | Peak memory | Result |")
    print("|---|---|---|---|---|---|", flush=True)


def kernel_path(named):
    """The kernel that is named, or the last one that is installed with its DWARF."""
    found = [named] if named else sorted(glob.glob(KERNELS))
    return os.path.abspath(found[-1]) if found else None


def threads_told(threads):
    return ONE if threads == 1 else f"`-j{threads}`"


def kernel(program, folder, runs, path, peers):
    """A kernel with its DWARF: its table with functions and without them, by one thread and by
    four, beside those of dwarves. Answers the tables: without functions, with them, and that of
    dwarves."""
    inputs = iter([f"`{os.path.basename(path)}`, {number(os.path.getsize(path))} bytes"])

    def row(what, threads, *words):
        words = [*words, "--btf_encode_detached=o", path] + [f"-j{threads}"] * (threads > 1)
        name = f"{what}, {threads_told(threads)}"
        return show(Row(name, next(inputs, "the same"), words), folder, runs)

    funcs, ours, theirs = [], [], [b""]
    for threads in (1, 4):
        funcs.append(row(FUNCS, threads, program, "--funcs"))
        theirs += [row(peer.name, threads, peer.path) for peer in peers]
        ours.append(row(KERNEL, threads, program))
    for what, tables in ((FUNCS, funcs), (KERNEL, ours)):
        if len(set(tables)) > 1:
            say(f"failed {what}: another table by another number of threads")
    if MORE:
        words = [program, "-C", "list_head", path]
        show(Row(KERNEL_LAYOUT, "the same, `-C list_head`", words), folder, runs)
    return ours[0], funcs[0], theirs[-1]


def cells_of(run):
    return f"{seconds(run.wall)} | {seconds(run.used)} | {number(round(run.memory / 1e6))} MB"


def print_readme(peers):
    """The table of README.md."""
    print("\n| Program | Stores | Time | CPU time | Peak memory |\n|---|---|---|---|---|")
    told = [("this pahole", "types and functions", FUNCS)]
    told += [(peer.name, "types, functions, variables", peer.name) for peer in peers]
    alone = ("this pahole", "types", KERNEL)
    for threads, rows in ((1, told), (4, told), (1, [alone]), (4, [alone])):
        for name, stores, what in rows:
            run = taken.get(f"{what}, {threads_told(threads)}")
            option = f", `-j{threads}`" if threads > 1 else ""
            if run:
                print(f"| {name}{option} | {stores} | {cells_of(run)} |")


def print_ratios(peers):
    """How this program stands to each other one on the kernel."""
    print("\n| Beside | Stores | CPU time, one thread | Time, `-j4` |\n|---|---|---|---|")
    for peer in peers:
        for what in (FUNCS, KERNEL):
            one, its_one = (taken[f"{name}, {ONE}"] for name in (what, peer.name))
            four, its_four = (taken[f"{name}, `-j4`"] for name in (what, peer.name))
            ratios = f"{one.used / its_one.used:.2f} | {four.wall / its_four.wall:.2f}"
            print(f"| {peer.name} | {what} | {ratios} |")


def read_back(folder):
    """A reader of what is stored over the kernel's table, where bpftool is installed: it tells
    where that reads another number of types."""
    if not shutil.which("bpftool"):
        say("skipped modules read back: bpftool is not installed")
        return lambda row: None

    def look(row):
        words = ["bpftool", "btf", "dump", "-B", f"{folder}/base", "file", f"{folder}/o"]
        done = subprocess.run(words, stdin=subprocess.DEVNULL, capture_output=True)
        # its lines of types begin with their numbers, those of the base left out
        lines = len(re.findall(rb"^\[\d+\]", done.stdout, re.M))
        if done.returncode != 0 or lines != count(read(f"{folder}/o")):
            complaint = done.stderr.decode(errors="replace").strip()[:200]
            had = f"{number(lines)} types, status {done.returncode}, {complaint}"
            say(f"failed {row.what}: bpftool reads {had}")

    return look


def beside(row, folder, runs, peers, look=lambda row: None):
    """A row of this program, and one of each other program, whose words have its path first."""
    show(row, folder, runs, look)
    for peer in peers:
        words = [peer.path, *(word for word in row.words[1:] if word != "--funcs")]
        name = f"{row.what.split(',')[0].removesuffix(' with functions')}, {peer.name}"
        show(Row(name, "the same", words), folder, runs)


def modules(program, folder, runs, path, base, peers):
    """Modules of the kernel over the table that was made of it, each by the others, too."""
    top = os.path.dirname(os.path.dirname(path))
    place = os.environ.get("MODULES") or f"{top}/lib/modules"
    with open(f"{folder}/base", "wb") as file:
        file.write(base)
    reader = read_back(folder)
    for name in MODULES:
        paths = glob.glob(f"{place}/**/{name}", recursive=True)
        if not base or not paths:
            say(f"skipped {name}: it is not in {place}")
            continue
        given = f"{number(os.path.getsize(paths[0]))} bytes, over the kernel's table"
        words = [program, "--btf_encode_detached=o", "--btf_base=base", paths[0]]
        beside(Row(f"{name}, types alone", given, words), folder, runs, peers, reader)


def real_programs(program, folder, runs, peers):
    """Programs that users have, which tools/real-programs.sh builds, each by the others, too."""
    for path in sorted(glob.glob(f"{os.environ.get('REAL', '')}/*")):
        if not os.path.isfile(path) or read(path)[:4] != b"\x7fELF":
            continue
        name, given = os.path.basename(path), f"{number(os.path.getsize(path))} bytes"
        words = [program, "--btf_encode_detached=o", "--funcs", path]
        beside(Row(f"{name} with functions", given, words), folder, runs, peers)


def squares(program, folder, peers):
    """Files over which the work is known to grow with the square: the CPU time of each program."""
    names = ["Case", "File", "This pahole", *(peer.name for peer in peers)]
    print(f"\n| {' | '.join(names)} |\n{'|---' * len(names)}|")
    for kind in hostile.KINDS:
        if kind.name not in SQUARES:
            continue
        size, has_peers = SQUARES[kind.name]
        data, cells = kind.file(size), []
        with open(f"{folder}/a", "wb") as file:
            file.write(data)
        for path in [program, *(peer.path for peer in peers if has_peers)]:
            status, run = measure([path, *kind.words(size)], folder, 1)
            cells.append(seconds(run.used) if status == 0 else f"status {status}")
        cells += ["-"] * (1 + len(peers) - len(cells))
        print(f"| {kind.name} | {number(len(data))} bytes | {' | '.join(cells)} |", flush=True)


def made_number(program, folder, runs):
    """A file that the program makes itself, from a number."""
    show(
        Row(MADE, f"`--selfmade={MADE_NUMBER}`", [program, f"--selfmade={MADE_NUMBER}"]),
        folder,
        runs,
    )
    if read(f"{folder}/printed") != MADE_LINE:
        say(f"failed {MADE}: it prints another line than {MADE_LINE.decode().strip()!r}")


def compare(*tables):
    """How many types of each kind are in the kernel's tables."""
    counts = [kinds(table) for table in tables]
    print()
    print("| Kind | Here | Here, with functions | By dwarves |")
    print("|---|---|---|---|")
    for kind in BTF_KINDS:
        if any(count[kind] for count in counts):
            print(f"| {kind} | {' | '.join(number(count[kind]) for count in counts)} |")


def table(program, root, folder, runs):
    """The types of the kernel that runs, from its own table; and a small program over them."""
    if not os.access(OWN, os.R_OK):
        return say(f"skipped {TABLE}: there is no {OWN}")
    path = f"{folder}/own"
    shutil.copyfile(OWN, path)
    data = read(path)
    given = f"`{OWN}`, {number(len(data))} bytes, {number(count(data))} types"
    show(Row(TABLE, given, [program, "-F", "btf", path]), folder, runs)
    if not shutil.which("cc"):
        return say(f"skipped {OVER}: there is no C compiler")
    subprocess.run(
        ["cc", "-g", "-o", f"{folder}/demo", f"{root}/demo/registry.c", f"{root}/demo/main.c"],
        check=True,
    )
    given = f"the program of `demo/`, {number(os.path.getsize(f'{folder}/demo'))} bytes"
    show(
        Row(
            OVER,
            given,
            [program, "--btf_encode_detached=o", f"--btf_base={path}", f"{folder}/demo"],
        ),
        folder,
        runs,
    )


def made_inputs(program, root, folder, runs):
    """Files that are made here, each by a process of its own, so that this one stays small."""
    for kind, what in MADE_ROWS.items():
        path = f"{folder}/{kind}"
        words = [sys.executable, "-B", f"{root}/checks/lib/made.py", kind, path]
        told = subprocess.run(words, capture_output=True, text=True, check=True).stdout
        made = Made(*map(int, told.split()))
        units = f"{number(made.units)} unit{'s' * (made.units > 1)}"
        given = f"{number(made.info)} bytes of `.debug_info`, {units}"
        stored = show(Row(what, given, [program, "--btf_encode_detached=o", path]), folder, runs)
        if stored and count(stored) != made.table:
            say(f"failed {what}: {count(stored)} types in place of {made.table}")
        if kind == "wide":
            show(Row(WIDE, "the same, `-C wide`", [program, "-C", "wide", path]), folder, runs)
        os.remove(path)


def phases(program, root, path):
    """What each phase takes over a kernel with one worker."""
    print(flush=True)
    subprocess.run([sys.executable, "-B", f"{root}/tools/phases.py", program, path], check=False)


def main():
    program, root, folder, runs = os.path.abspath(sys.argv[1]), *sys.argv[2:4], int(sys.argv[4])
    peers = list(installed_peers())
    path = kernel_path(sys.argv[5] if len(sys.argv) > 5 else None)
    machine(program, runs, peers)
    tables = []
    if path:
        tables = kernel(program, folder, runs, path, peers)
        modules(program, folder, runs, path, tables[0], peers)
    else:
        say(f"skipped {KERNEL}: there is no {KERNELS}; the package {PACKAGE}")
    real_programs(program, folder, runs, peers)
    table(program, root, folder, runs)
    if MORE:
        made_number(program, folder, runs)
        made_inputs(program, root, folder, runs)
    squares(program, folder, peers)
    if tables:
        print_readme(peers)
        print_ratios(peers)
    if tables and MORE:
        compare(*tables)
        phases(program, root, path)
    return any(line.startswith("failed ") for line in said)


if __name__ == "__main__":
    sys.exit(main())
