#!/usr/bin/env bash
# turns.sh VMLINUX [TURNS]: the built program (or PAHOLE) and Debian's tool pahole encode a kernel
# in turn; prints a table of turns. No check runs this: its answers depend on the machine.
set -u
export LC_ALL=C.UTF-8 PATH=$PATH:/usr/sbin:/sbin
. "$(dirname "$0")/../checks/lib/program.sh"

need turns python3 pahole
python3 -B "$root/tools/turns.py" "$program" "$@"
