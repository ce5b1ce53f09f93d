#!/usr/bin/env bash
# The examples of the README, of the manual page and of docs/GUIDE.md: the built program prints of
# the program of demo/ what they show.
set -u
export LC_ALL=C.UTF-8 PATH=$PATH:/usr/sbin:/sbin
. "$(dirname "$0")/lib/program.sh"

need examples cc python3
case "$(cc -dumpmachine)" in
  x86_64*) ;;
  *) echo "skipped examples: they are of another machine" && exit 0 ;;
esac
# as tools/demo.sh does it: the names of folders stand in the file, so its size depends on them
scratch=$(TMPDIR=/tmp mktemp -d) || exit 2
trap 'rm -rf "$scratch"' EXIT
cp -r "$root/demo" "$scratch/demo"
(cd "$scratch" && cc -g -gdwarf-5 -o registry demo/registry.c demo/main.c) || exit 2
pages=("$root/README.md" "$root/docs/man/pahole.1" "$root/docs/GUIDE.md")
python3 -B "$root/checks/lib/examples.py" "$program" "$scratch" "${pages[@]}"
