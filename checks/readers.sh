#!/usr/bin/env bash
# Other readers of BTF accept what the program stores (the files stored.o.hex of the cases, which
# checks/cases.sh compares with the program's), a split table over its base: bpftool, and a small C
# program over libbpf's btf__parse and btf__parse_split. A reader that isn't installed is skipped by
# name.
set -u
export LC_ALL=C PATH=$PATH:/usr/sbin:/sbin
root=$(cd "$(dirname "$0")/.." && pwd) || exit 2
. "$root/checks/lib/hex.sh"

scratch=$(mktemp -d) || exit 2
trap 'rm -rf "$scratch"' EXIT

# the reader's name, and the command that is given a file, and its base where it has one
read_all() {
  local reader=$1 folder name said base
  shift
  for folder in "$root"/crates/run_cases/data/*/; do
    [ -f "${folder}stored.o.hex" ] && [ ! -f "${folder}stops" ] || continue
    name=$(basename "$folder")
    unhex <"${folder}stored.o.hex" >"$scratch/o"
    base=()
    if grep -q '^--btf_base=B$' "${folder}words"; then
      unhex <"${folder}file.B.hex" >"$scratch/B"
      base=("$scratch/B")
    fi
    if said=$("$@" "$scratch/o" ${base[@]+"${base[@]}"} 2>&1); then
      echo "passed $reader $name"
    else
      echo "failed $reader $name: ${said//$'\n'/; }"
    fi
  done
}

dump() { bpftool ${2:+-B "$2"} btf dump file "$1" format raw; }

if command -v bpftool >/dev/null 2>&1; then
  read_all bpftool dump
else
  echo "skipped bpftool: it is not installed"
fi

cat >"$scratch/parse.c" <<'C'
#include <bpf/btf.h>
#include <bpf/libbpf.h>
#include <stdio.h>

int main(int count, char **words) {
	struct btf *base = count == 3 ? btf__parse(words[2], NULL) : NULL;
	struct btf *btf = NULL;
	if (count > 1)
		btf = base ? btf__parse_split(words[1], base) : btf__parse(words[1], NULL);
	if (!btf || libbpf_get_error(btf)) {
		fprintf(stderr, "btf__parse refuses it\n");
		return 1;
	}
	btf__free(btf);
	btf__free(base);
	return 0;
}
C
if cc -o "$scratch/parse" "$scratch/parse.c" -lbpf >/dev/null 2>&1; then
  read_all libbpf "$scratch/parse"
else
  echo "skipped libbpf: its headers or a C compiler are not installed"
fi
