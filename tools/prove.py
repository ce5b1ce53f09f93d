"""prove.py [CRATE]: proves a crate (by default the program) and those below it, side by side, in
made/program, a copy that keeps what it proved, and tells how far it is. What the toolchain says
goes to made/prove.log. A program is built then, and stands at crates/CRATE/out/CRATE."""
import math
import os
import shutil
import subprocess
import sys
import time
from pathlib import Path

ROOT = Path(__file__).resolve().parent.parent
COPY = ROOT / "made/program"
LOG = ROOT / "made/prove.log"
# what the proof of one crate takes at most, in KiB
MEMORY = 3 << 20


def crates_below(name, uses):
    """The crate and those of the repository that it stands on, lowest first."""
    found = []
    for lower in uses[name]:
        found += [crate for crate in crates_below(lower, uses) if crate not in found]
    return found + [name]


def read_uses():
    """For each crate of crates.txt those of the repository that it uses, and its line there."""
    lines = {}
    for line in (ROOT / "crates.txt").read_text(encoding="utf-8").splitlines():
        if ":" in line and not line.startswith("#"):
            lines[line.split(":")[0].split()[0]] = line
    uses = {}
    for name, line in lines.items():
        uses[name] = [word for word in line.split(":")[1].split() if word in lines]
    return uses, lines


def copy_sources(crates, lines):
    """The copy has exactly these crates, as they stand, and what was proved there before."""
    (COPY / "crates").mkdir(parents=True, exist_ok=True)
    (COPY / "crates.txt").write_text("".join(lines[crate] + "\n" for crate in crates))
    shutil.copy2(ROOT / "HANDLES", COPY / "HANDLES")
    for old in (COPY / "crates").iterdir():
        if old.name not in crates:
            shutil.rmtree(old)
    for crate in crates:
        there = COPY / "crates" / crate
        for old in there.iterdir() if there.exists() else ():
            if old.name != "out":
                shutil.rmtree(old) if old.is_dir() else old.unlink()
        shutil.copytree(
            ROOT / "crates" / crate, there, dirs_exist_ok=True, ignore=shutil.ignore_patterns("out")
        )


def count_jobs():
    """How many proofs run at a time: as many as there are processors and memory."""
    with open("/proc/meminfo", encoding="ascii") as file:
        free = int(dict(line.split(":") for line in file)["MemAvailable"].split()[0])
    return max(1, min(len(os.sched_getaffinity(0)), free // MEMORY))


def size_of(crate):
    return sum(
        path.stat().st_size for path in (ROOT / "crates" / crate).rglob("*.*t") if path.is_file()
    )


def tell(done, sizes, began):
    """How many crates are checked, and about how long the others will take."""
    line = f"checked {len(done)} of {len(sizes)} crates"
    left = sum(size for crate, size in sizes.items() if crate not in done)
    if left:
        pace = (time.monotonic() - began) / sum(sizes[crate] for crate in done)
        minutes = max(1, math.ceil(left * pace / 60))
        line += f", about {minutes} minute{'s' * (minutes > 1)} left"
    print(line, flush=True)


def prove(crates):
    """Whether all of them are proved."""
    sizes = {crate: size_of(crate) for crate in crates}
    jobs, done, began = count_jobs(), [], time.monotonic()
    print(f"proving {len(crates)} crates, {jobs} at a time; details are in {LOG.relative_to(ROOT)}")
    command = ["rt", "all", "check", "--jobs", str(jobs)]
    with open(LOG, "w", encoding="utf-8") as log, subprocess.Popen(
        command, cwd=COPY, stdout=subprocess.PIPE, stderr=subprocess.STDOUT, text=True
    ) as running:
        for line in running.stdout:
            log.write(line)
            crate = line[3:].strip() if line.startswith("== ") else ""
            if crate in sizes:
                done.append(crate)
                tell(done, sizes, began)
    return running.returncode == 0


def build(crate):
    """Whether the proved program stands in its place; `rt run` also runs it."""
    built, place = COPY / "crates" / crate / "out" / crate, ROOT / "crates" / crate / "out" / crate
    with open(LOG, "a", encoding="utf-8") as log:
        subprocess.run(["rt", "run"], cwd=built.parents[1], stdout=log, stderr=log, check=False)
    if built.exists():
        place.parent.mkdir(exist_ok=True)
        shutil.copy2(built, place)
    return built.exists()


def main():
    crate = sys.argv[1] if len(sys.argv) > 1 else "pahole"
    uses, lines = read_uses()
    crates = crates_below(crate, uses)
    copy_sources(crates, lines)
    if not prove(crates):
        sys.exit(f"not all crates are proved: {LOG.relative_to(ROOT)} says which")
    print("all are proved")
    if (ROOT / "crates" / crate / "src/main.rt").exists() and not build(crate):
        sys.exit(f"the program was not built: {LOG.relative_to(ROOT)} says why")


if __name__ == "__main__":
    main()
