"""turns.py PROGRAM FILE [TURNS]: how PROGRAM stands to Debian's tool pahole on FILE, also on a
machine that other work shares: in each turn both encode it with one worker and with four, one
after the other. Prints a row for each turn, in seconds, and how one stands to the other, and a
row of medians."""
import os
import statistics
import subprocess
import sys
import tempfile
import time

TURNS = 5
# the last row's name
MEDIANS = "the medians"


def taken(words):
    """The time from start to end and the processor time of a run, in seconds."""
    began = time.monotonic()
    process = subprocess.Popen(words, stdout=subprocess.DEVNULL, stderr=subprocess.DEVNULL)
    _, status, usage = os.wait4(process.pid, 0)
    process.returncode = os.waitstatus_to_exitcode(status)
    if process.returncode != 0:
        sys.exit(f"failed turns: {' '.join(words)} ended with status {process.returncode}")
    return time.monotonic() - began, usage.ru_utime + usage.ru_stime


def turn(program, file, out):
    """Of a turn the processor times with one worker, this program's and pahole's, and the times
    with four, this program's and pahole's, and at last this program's time with one."""
    encode = [f"--btf_encode_detached={out}", file]
    one_time, one = taken([program, "-j1", *encode])
    four_time, _ = taken([program, "-j4", *encode])
    (_, its_one), (its_four_time, _) = taken(["pahole", *encode]), taken(["pahole", "-j4", *encode])
    return one, its_one, four_time, its_four_time, one_time


def row(name, one, its_one, four_time, its_four_time, one_time):
    return (
        f"| {name} | {one:.2f} s | {its_one:.2f} s | {one / its_one:.2f} "
        f"| {four_time:.2f} s | {its_four_time:.2f} s "
        f"| {four_time / its_four_time:.2f} | {four_time / one_time:.2f} |"
    )


def main():
    program, file, *count = sys.argv[1:]
    print(
        "| Turn | CPU time, `-j1` | dwarves', one thread | Ratio "
        "| Time, `-j4` | dwarves', `-j4` | Ratio | `-j4` to `-j1` |"
    )
    print("|---|---|---|---|---|---|---|---|")
    turns = []
    with tempfile.TemporaryDirectory() as folder:
        for number in range(int(count[0]) if count else TURNS):
            turns.append(turn(os.path.abspath(program), file, f"{folder}/out"))
            print(row(number + 1, *turns[-1]), flush=True)
    print(row(MEDIANS, *map(statistics.median, zip(*turns))))


if __name__ == "__main__":
    main()
