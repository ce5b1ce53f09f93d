#!/usr/bin/env bash
# The spelling of pages, scripts, code and definitions, by codespell.
set -u
export LC_ALL=C.UTF-8
root=$(cd "$(dirname "$0")/.." && pwd) || exit 2
. "$root/checks/lib/need.sh"
need spelling codespell
cd "$root" || exit 2
mapfile -t files < <(find README.md Makefile .ci checks docs tools crates \
  -path '*/out' -prune -o -path '*/data' -prune -o -type f \
  \( -name '*.md' -o -name '*.toml' -o -name '*.1' -o -name '*.sh' -o -name '*.py' \
  -o -name '*.rt' -o -name '*.antt' -o -name Makefile -o -name run \) -print)
if found=$(codespell -L crate,crates "${files[@]}" 2>&1) && [ -z "$found" ]; then
  echo "passed spelling of ${#files[@]} files"
else
  echo "failed spelling: ${found//$'\n'/; }"
fi
