#!/usr/bin/env bash
# edits.sh [CRATE..]: tries the edits that must fail and are no part of the gate, of each crate that
# has some (or of those named): the files crates/NAME/more-edits/*.edit, in the form of those in
# must-fail/. They are tried as the gate tries its own, on a copy of the repository where they stand
# in their place. No check runs this, for each costs a check of its crate: `make edits`.
set -u
export LC_ALL=C.UTF-8
root=$(cd "$(dirname "$0")/.." && pwd) || exit 2
. "$root/checks/lib/toolchain.sh"
scratch=$(mktemp -d) || exit 2
trap 'rm -rf "$scratch"' EXIT

# The copy has the sources, and of each crate that was checked here what its check kept.
mkdir "$scratch/copy"
cp -r "$root/crates.txt" "$root/HANDLES" "$scratch/copy" || exit 2
cp -a "$root/crates" "$scratch/copy/crates" || exit 2
cd "$scratch/copy" || exit 2
rm -rf crates/*/must-fail

if [ $# = 0 ]; then
  crates=()
  for folder in crates/*/more-edits; do crates+=("$(basename "$(dirname "$folder")")"); done
else
  crates=("$@")
fi
for crate in "${crates[@]}"; do
  mv "crates/$crate/more-edits" "crates/$crate/must-fail" || exit 2
done
rt must-fail "${crates[@]}"
