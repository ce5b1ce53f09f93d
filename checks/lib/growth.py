"""growth.py PROGRAM FOLDER SIZE: runs PROGRAM over small files of each kind of hostile.py at the
sizes n, 2n and 4n, and fails a kind where a doubling multiplies the processor time by more than
MOST once it passes ENOUGH seconds. A kind whose times grow is measured up to TRIES times, and fails
where they grow each time. A kind that is known to grow with the square is told as known in its
place. SIZE is `small`, as the gate has it, or `large`, as `make measure` has it; a kind's large
sizes are those times LARGER."""
import os
import sys

import timed
from hostile import KINDS, SMALL, SMALL_FILE

MOST, ENOUGH, TRIES, LARGER, LIMIT = 3, 0.5, 3, 5, 120


def run(program, folder, words):
    """The processor time of a run, and its complaint; None where it did not end in time or by a
    signal."""
    time, done = timed.run([program, *words], folder, LIMIT)
    if done is None:
        return None, f"it had not ended after {LIMIT} seconds"
    if done.returncode < 0:
        return None, f"it ended by signal {-done.returncode}"
    return time, done.stderr.decode(errors="replace").strip()[:100]


def measured(program, folder, kind, sizes):
    """The processor times at the sizes, what is told of each, and the last complaint; no times
    where a run did not end."""
    times, told, said = [], [], ""
    for n in sizes:
        with open(os.path.join(folder, "a"), "wb") as it:
            it.write(kind.file(n))
        time, said = run(program, folder, kind.words(n))
        told.append(f"{n:,}: {said if time is None else f'{time:.2f} s'}")
        if time is None:
            return None, told, said
        times.append(time)
    return times, told, said


def grows(times):
    return any(after > ENOUGH and after > MOST * before for before, after in zip(times, times[1:]))


def check(program, folder, kind, sizes):
    """What is said of a kind. Where its times grow it is measured anew, since other programs of
    the machine take time, too: work that grows does so each time."""
    for _ in range(1 if kind.is_square else TRIES):
        times, told, said = measured(program, folder, kind, sizes)
        if times is None:
            return f"failed growth {kind.name}: {'; '.join(told)}"
        if not grows(times):
            break
    how = "passed" if not grows(times) else "known" if kind.is_square else "failed"
    return f"{how} growth {kind.name}: {', '.join(told)}{f' ({said})' if said else ''}"


def main():
    program, folder, size = sys.argv[1:]
    is_large = size == "large"
    with open(os.path.join(folder, SMALL), "wb") as it:
        it.write(SMALL_FILE)
    for kind in KINDS:
        if kind.has_larger or not is_large:
            n = kind.least * (LARGER if is_large else 1)
            print(check(program, folder, kind, [n, 2 * n, 4 * n]), flush=True)


main()
