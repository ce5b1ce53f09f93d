#!/usr/bin/env bash
# ways.sh FOLDER: builds the programs of tools/real-programs.sh by gcc and clang, with DWARF 4 and
# 5, each in a folder of its own in FOLDER, where that is not there yet, and prints tables of what the
# built program (or PAHOLE) and Debian's tool pahole write of them, and of their objects. No check runs
# this: it takes an hour, and needs what tools/real-programs.sh needs.
set -u
export LC_ALL=C.UTF-8 PATH=$PATH:/usr/sbin:/sbin
. "$(dirname "$0")/../checks/lib/program.sh"

need ways python3 pahole gcc clang nm
folder=${1:?FOLDER}
ways=()
for cc in gcc clang; do
  for version in 5 4; do
    way=$folder/$cc$version
    ways+=("$way")
    [ -d "$way" ] || SOURCES=$folder/packages CC=$cc CFLAGS="-g -gdwarf-$version -O2" \
      bash "$root/tools/real-programs.sh" "$way"
  done
done

python3 -B "$root/tools/ways.py" "$program" "${ways[@]}"
