#!/usr/bin/env bash
# Layouts of real programs: the C program of demo/, and one with some hundred made structures and
# unions, built by the compiler in several ways and printed by the built program. Each size, each
# member's place and size, and the bits of each bit field are what the compiler says of them in a
# program of its own (checks/lib/layouts.py).
set -u
export LC_ALL=C
. "$(dirname "$0")/lib/program.sh"

need layouts cc python3
scratch=$(mktemp -d) || exit 2
trap 'rm -rf "$scratch"' EXIT
python3 "$root/checks/lib/layouts.py" "$program" "$root/demo" "$scratch"
