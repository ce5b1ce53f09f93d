#!/usr/bin/env bash
# Functions: checks/lib/functions.c, built by gcc and clang in several ways and encoded with
# --funcs. The functions in the table, each with its linkage, its prototype and its parameters'
# names, are those of the BTF that clang itself writes of the same file for the BPF target, and
# their names those that Debian's tool pahole finds; bpftool reads the table. Without --funcs there
# is none. What is not installed is skipped by name.
set -u
export LC_ALL=C PATH=$PATH:/usr/sbin:/sbin
. "$(dirname "$0")/lib/program.sh"

need functions cc python3
scratch=$(mktemp -d) || exit 2
trap 'rm -rf "$scratch"' EXIT
lib=$root/checks/lib
python3 -B "$lib/functions.py" "$program" "$lib/functions.c" "$root/demo" "$scratch"
