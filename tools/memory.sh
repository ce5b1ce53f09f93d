#!/usr/bin/env bash
# memory.sh [CASE..]: refuses the built program one request for memory, each in turn, and then that
# one and all later ones, on some cases of crates/run_cases/data or on those named (tools/memory.py,
# tools/refuse.c). No check runs this: `make memory`.
set -u
export LC_ALL=C.UTF-8
. "$(dirname "$0")/../checks/lib/program.sh"

need memory cc python3
scratch=$(mktemp -d) || exit 2
trap 'rm -rf "$scratch"' EXIT
cc -O1 -shared -fPIC -o "$scratch/refuse.so" "$root/tools/refuse.c" || exit 2
if [ $# = 0 ]; then
  set -- one-base-type declaration-with-two-definitions definition-over-a-declared-base \
    registry-encoded registry-printed sizes selfmade-0 selfmade-1049602 functions-one \
    objects-twice list-head-from-btf no-such-name unit-version-3 file-missing unknown-option
fi
python3 -B "$root/tools/memory.py" "$program" "$scratch/refuse.so" "$@"
