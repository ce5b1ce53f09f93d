#!/usr/bin/env bash
# Workers: a program of twelve units that is made here is encoded by 1, 2, 3, 7 and 256 workers,
# with its functions and without, and its layouts are shown: always the same bytes. Each twenty
# times, one after the other, and then all again at twice as many runs at once as there are
# processors. Where units of two objects are refused, the first of them is told, whatever the number
# of workers.
set -u
export LC_ALL=C
. "$(dirname "$0")/lib/program.sh"

need workers cc python3
scratch=$(mktemp -d) || exit 2
trap 'rm -rf "$scratch"' EXIT
python3 -B "$root/checks/lib/workers.py" "$program" "$scratch"
