"""phases.py PROGRAM FILE [OPTION..]: how much processor time each phase of a run takes that
encodes FILE with one worker: a table of phases, in seconds and hundredths of the whole. By `perf
record`: a sample counts for the phase whose crate's function it meets. One that meets the
library's own code, as malloc, memcpy or a hash map, counts for the phase before it, and all
behind the last function of ours for letting go. Needs perf (Debian's package linux-perf)."""
import collections
import os
import shutil
import subprocess
import sys
import tempfile

FREQUENCY = 1997
# each phase, with the paths of functions that do it: whole crates, or a function into which others
# are compiled
PHASES = {
    "loading the file": ["world_io", "elf_sections", "elf_reloc"],
    "reading entries": [
        "dw_base",
        "dwarf_abbrev",
        "dwarf_forms",
        "entry_tree",
        "type_attributes",
        "c_types",
        "func_entries",
        "memchr",
    ],
    "linking, each label once": [
        "unit_graph",
        "unit_encoder",
        "packed_graph",
        "func_types",
        "func_merge",
    ],
    "classes": [
        "forward_rule",
        "type_signature",
        "class_halves",
        "class_refine",
        "base_merge::merge::classes_over",
    ],
    "the table and its bytes": ["split_base", "base_merge", "btf_strings", "btf_codec"],
}
LETTING_GO = "letting go"
PATHS = {path: phase for phase, paths in PHASES.items() for path in paths}


def phase_of(function):
    """The phase of a function by the longest path that it begins with; None where it is the
    library's."""
    parts = function.split("::")
    return next(
        (
            PATHS[path]
            for count in range(len(parts), 0, -1)
            if (path := "::".join(parts[:count])) in PATHS
        ),
        None,
    )


def samples(program, words):
    """The functions that were met, sample by sample, in the order of time."""
    with tempfile.TemporaryDirectory() as folder:
        os.chdir(folder)
        record = f"perf record -q -e cpu-clock -F {FREQUENCY} -o samples".split()
        run = [program, "--btf_encode_detached=out", "-j1", *words]
        said = subprocess.run([*record, *run], capture_output=True, text=True, check=False)
        if said.returncode != 0:
            sys.exit(f"failed phases: {said.stderr.strip()}")
        script = "perf script -i samples -F time,ip,sym".split()
        told = subprocess.run(script, capture_output=True, text=True, check=True)
    lines = (line.split(None, 2) for line in told.stdout.splitlines())
    return [words[2].split("::<")[0] for words in lines if len(words) == 3]


def phases(functions):
    """How many samples each phase has."""
    met = [phase_of(name) for name in functions]
    last = max((at for at, phase in enumerate(met) if phase), default=-1)
    counts, now = collections.Counter(), next(iter(PHASES))
    for at, phase in enumerate(met):
        now = LETTING_GO if at > last else phase or now
        counts[now] += 1
    return counts


def main():
    program, *words = sys.argv[1:]
    if not shutil.which("perf"):
        print("skipped phases: perf is not installed", file=sys.stderr)
        return
    counts = phases(
        samples(
            os.path.abspath(program),
            [os.path.abspath(word) if os.path.exists(word) else word for word in words],
        )
    )
    total = sum(counts.values())
    print("| Phase | CPU time | Of the whole |\n|---|---|---|")
    for phase in [*PHASES, LETTING_GO]:
        print(
            f"| {phase} | {counts[phase] / FREQUENCY:.2f} s | {100 * counts[phase] / total:.0f}% |"
        )


if __name__ == "__main__":
    main()
