#!/usr/bin/env bash
# plants.sh [CRATE..]: plants wrong bodies in each crate with clauses (or in those named) by `rt
# plant`, and prints a row of what came of it; what is still proved, and what was not tried, is told on
# standard error. MINUTES and PLANTS bound each crate, by default 60 and 2,000. No check runs this, for
# a crate takes minutes: `make plants`.
set -u
export LC_ALL=C.UTF-8
root=$(cd "$(dirname "$0")/.." && pwd) || exit 2
. "$root/checks/lib/need.sh"
need plants rt
scratch=$(mktemp -d) || exit 2
trap 'rm -rf "$scratch"' EXIT

# the crates with clauses, in the order of crates.txt; programs and crates of tests have none that a
# body can be planted under
listed() {
  local crate
  while read -r crate _; do
    crate=${crate%:}
    if grep -qs '^pub ' "$root/crates/$crate/src/lib.rt"; then echo "$crate"; fi
  done <"$root/crates.txt"
}

# the row of what `rt plant` counted in its last line, as `planted-in=6 untested=5 ..`
row() {
  local crate=$1 cells=() what
  for what in planted-in untested no-ensures refused elsewhere same proves not-judged; do
    cells+=("$(grep -oE "(^| )$what=[0-9]+" <<<"$2" | cut -d= -f2)")
  done
  printf '| `%s`' "$crate"
  printf ' | %s' "${cells[@]}"
  echo ' |'
}

failed=0
echo "| Crate | Planted in | Untested | No ensures | Refused | Elsewhere | Same | Proves | Not judged |"
echo "|---|---|---|---|---|---|---|---|---|"
if [ $# = 0 ]; then mapfile -t crates < <(listed); else crates=("$@"); fi
for crate in "${crates[@]}"; do
  (cd "$root/crates/$crate" && rt plant --minutes "${MINUTES:-60}" --max "${PLANTS:-2000}") \
    >"$scratch/log" 2>"$scratch/errors"
  told=$(grep '^plants crate=' "$scratch/log")
  if [ -z "$told" ]; then
    echo "failed plants $crate: $(tail -n 1 "$scratch/errors")" >&2
    failed=1
    continue
  fi
  row "$crate" "$told"
  grep -E '^(proves|no-ensures) ' "$scratch/log" | sed "s/^/$crate: /" >&2
  if ! grep -q ' not-run=0' <<<"$told"; then
    echo "failed plants $crate: some were not tried in ${MINUTES:-60} minutes" >&2
    failed=1
  fi
done
exit $failed
