#!/usr/bin/env bash
# measure.sh [VMLINUX]: measures the built program (or PAHOLE) beside dwarves' pahole that is
# installed, and the newer one whose path is NEWEST. Prints all rows of README.md's table and of the
# tables of docs/BENCHMARKS.md, from one run of some ten minutes on a machine that does nothing else:
# a kernel with debugging information, its modules in the folder MODULES, the programs in the folder
# REAL, the BTF of the kernel that runs, and files made to be slow. A row whose input or tool is
# missing is skipped by name. RUNS is how often each is timed, by default 3. MORE=1 has more rows, and
# then the check of growth over its larger files. No check runs this: its answers depend on the
# machine.
set -u
export LC_ALL=C.UTF-8 PATH=$PATH:/usr/sbin:/sbin
. "$(dirname "$0")/../checks/lib/program.sh"

need measure python3
scratch=$(mktemp -d) || exit 2
trap 'rm -rf "$scratch"' EXIT
mkdir "$scratch/runs"
python3 -B "$root/tools/measure.py" "$program" "$root" "$scratch/runs" "${RUNS:-3}" "$@" || exit 1
if [ -n "${MORE:-}" ]; then LARGE=1 bash "$root/checks/growth.sh"; fi
