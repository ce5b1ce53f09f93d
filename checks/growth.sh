#!/usr/bin/env bash
# Small files that could make the program's work grow faster than its input: each kind at three
# sizes, each twice the one before. A kind fails where a doubling multiplies the processor time by
# more than three once it passes half a second (checks/lib/growth.py). The gate runs it so. With
# LARGE=1 the files are five times as large, as `make measure` runs it.
set -u
export LC_ALL=C
. "$(dirname "$0")/lib/program.sh"

need growth python3
scratch=$(mktemp -d) || exit 2
trap 'rm -rf "$scratch"' EXIT
size=small
if [ -n "${LARGE:-}" ]; then size=large; fi
python3 -B "$root/checks/lib/growth.py" "$program" "$scratch" "$size"
