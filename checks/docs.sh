#!/usr/bin/env bash
# The pages README.md and docs/: each path, link, definition's file and option of a command that
# they name exists. The page on architecture has each crate and each file of its definitions. That
# on errors is what its table makes, with exactly the program's numbers. That on what is proved has
# each crate and each edit that no clause refuses. And each edit names its class.
set -u
export LC_ALL=C.UTF-8
root=$(cd "$(dirname "$0")/.." && pwd) || exit 2
. "$root/checks/lib/need.sh"
need docs python3
for script in docs bugs errors; do
  python3 -B "$root/checks/lib/$script.py"
done
