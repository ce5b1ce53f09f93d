#!/usr/bin/env bash
# Real programs: the C program of demo/, built by compilers in several ways and for several
# machines, encoded and shown by the built program with one worker and with four. Both give the same
# bytes, bpftool and libbpf read them, and each structure's size and the places and bits of its
# members, in the table and in the printed layouts, are what the compiler says of them. The objects
# of that program, and of a larger one that is made here, give the linked program's table, and each
# alone some of its types. Files of a kind that is not read are refused with their number and place.
# Structures that are made at random, by every gcc and clang that is installed, with DWARF of each
# version, have the sizes, places and bits that the compiler says, too. What is not installed is
# skipped by name; tools/install-tools.sh installs most of it.
set -u
export LC_ALL=C
. "$(dirname "$0")/lib/program.sh"

need programs cc python3
scratch=$(mktemp -d) || exit 2
trap 'rm -rf "$scratch"' EXIT
python3 -B "$root/checks/lib/programs.py" "$program" "$root/demo" "$scratch"
python3 -B "$root/checks/lib/compilers.py" "$program" "$scratch"
