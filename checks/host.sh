#!/usr/bin/env bash
# The built program on a host that fails: output closed, full or given to a pipe that nobody reads;
# files that are not there, are folders or never end; outputs in no folder or on a full disk; an
# output that is also an input. Each time the status and the complaint are as the manual says, no
# signal ends the program, and nothing is half written but on status 3. What this machine can't do
# is skipped by name.
set -u
export LC_ALL=C PATH=$PATH:/usr/sbin:/sbin
. "$(dirname "$0")/lib/program.sh"

need host cc python3
scratch=$(mktemp -d) || exit 2
trap 'umount "$scratch/disk" 2>/dev/null; rm -rf "$scratch"' EXIT
cc -w -g -o "$scratch/a" "$root/demo/registry.c" "$root/demo/main.c" || exit 2
mkdir "$scratch/disk"
mount -t tmpfs -o size=4k none "$scratch/disk" 2>/dev/null || rmdir "$scratch/disk"
python3 -B "$root/checks/lib/host.py" "$program" "$scratch"
