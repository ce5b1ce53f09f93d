#!/usr/bin/env bash
# The memory of runs over files made to be hostile, by 1, 4 and 64 workers: each kind of file has a
# bound for each byte of it, and what is stored, printed and complained is that of one worker
# (checks/lib/peak.py). With LARGE=1 a file has more types than a table holds; it takes 1.4 GB.
set -u
export LC_ALL=C
. "$(dirname "$0")/lib/program.sh"

need memory python3
scratch=$(mktemp -d) || exit 2
trap 'rm -rf "$scratch"' EXIT
python3 -B "$root/checks/lib/peak.py" "$program" "$scratch"
