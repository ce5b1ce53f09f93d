# shellcheck shell=bash
# Sourced by the checks: sets `program` to the built program, or says why there is none.
# PAHOLE names another program to look at.
root=$(cd "$(dirname "${BASH_SOURCE[0]}")/../.." && pwd)
. "$root/checks/lib/hex.sh"
. "$root/checks/lib/need.sh"
program=${PAHOLE:-$root/crates/pahole/out/pahole}
if [ -z "${PAHOLE:-}" ]; then
  if [ ! -d "$root/crates/pahole" ]; then
    echo "skipped $(basename "$0"): there is no crate pahole"
    exit 0
  fi
  if ! command -v rt >/dev/null; then
    echo "skipped $(basename "$0"): this machine has no rt"
    exit 0
  fi
  build=$(cd "$root/crates/pahole" && rt run 2>&1 </dev/null)
  if [ ! -x "$program" ]; then
    echo "$build" | tail -n 20
    echo "failed $(basename "$0"): the program is not built"
    exit 1
  fi
fi
