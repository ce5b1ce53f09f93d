"""times.py WATCHED STOP: samples the processes below the process WATCHED until the file STOP is
there, and then prints two tables of processor times in seconds: for each crate those of its
proof, of its tests' proof, of the proof that its edits begin with, and of its edits, as `rt ci`
starts them, and then the edits that took longest. Where the system has no /proc it prints
nothing."""
import os
import re
import sys
import time

TICK = os.sysconf("SC_CLK_TCK")
EVERY = 0.5
COLUMNS = ("proof", "tests", "seed", "edits")
DEAREST = 20


def processes():
    """For each process: its parent, and its processor time in seconds with that of the children
    it has waited for."""
    for name in os.listdir("/proc"):
        if name.isdigit():
            try:
                with open(f"/proc/{name}/stat") as file:
                    fields = file.read().rpartition(")")[2].split()
            except OSError:
                continue
            yield int(name), int(fields[1]), (int(fields[11]) + int(fields[12])) / TICK


def words(process):
    try:
        with open(f"/proc/{process}/cmdline", "rb") as file:
            return file.read().decode(errors="replace").split("\0")
    except OSError:
        return []


def kind(process):
    """The crate that a process proves, for what, and which edit it tries, counted from 0; None
    where it proves none."""
    said = words(process)
    if "--crate-name" not in said[:-1] or len(said) < 2 or said[1] not in ("build", "check"):
        return None
    crate = said[said.index("--crate-name") + 1]
    # a program is proved by a check that keeps what it proved (-o), an edit by one that keeps
    # nothing
    if said[1] == "build" or "-o" in said:
        return crate, "tests" if "--test" in said else "proof", None
    # an edit is tried over what was proved before it, in a folder of its number
    over = said[said.index("--incremental") + 1] if "--incremental" in said[:-1] else ""
    number = over.rpartition("/")[2]
    return crate, "seed" if number == "seed" else "edits", int(number) if number.isdigit() else None


def below(parents, process):
    while process in parents:
        yield process
        process = parents[process]


def sample(watched, found, known):
    """Notes the processor time of each process below the watched one that proves a crate."""
    now = list(processes())
    parents = {process: parent for process, parent, _ in now}
    for process, _, spent in now:
        if watched not in below(parents, process):
            continue
        if process not in known or known[process] is None:
            known[process] = kind(process)
        if known[process]:
            found[process, known[process]] = spent


def table(found):
    rows = {}
    for (_, (crate, what, _)), spent in found.items():
        row = rows.setdefault(crate, dict.fromkeys(COLUMNS, 0.0))
        row[what] += spent
    lines = [
        "| Crate | Proof | Its tests' proof | Proof before its edits | Edits | Together |",
        "|---|---|---|---|---|---|",
    ]
    for crate, row in sorted(rows.items(), key=lambda item: -sum(item[1].values())):
        cells = [*(row[column] for column in COLUMNS), sum(row.values())]
        lines.append(f"| {crate} | " + " | ".join(f"{cell:,.0f}" for cell in cells) + " |")
    return lines


def edits_of(crate):
    """The edits of a crate, in the order in which `rt ci` counts them."""
    folder = os.path.join("crates", crate, "must-fail")
    if not os.path.isdir(folder):
        return []
    return sorted(name for name in os.listdir(folder) if name.endswith(".edit"))


def dearest(found):
    spent_on = {}
    for (_, (crate, _, number)), spent in found.items():
        names = edits_of(crate)
        if number is not None and number < len(names):
            edit = f"{crate}/{names[number].removesuffix('.edit')}"
            spent_on[edit] = spent_on.get(edit, 0.0) + spent
    most = sorted(spent_on.items(), key=lambda item: -item[1])[:DEAREST]
    if not most:
        return []
    rows = [f"| {edit} | {spent:,.0f} |" for edit, spent in most]
    return ["", "| Edit | Seconds |", "|---|---|", *rows]


def main():
    watched, stop = int(sys.argv[1]), sys.argv[2]
    found, known = {}, {}
    if not os.path.isdir("/proc/self"):
        return
    while not os.path.exists(stop):
        sample(watched, found, known)
        time.sleep(EVERY)
    if found:
        print("\n".join([*table(found), *dearest(found)]))


main()
