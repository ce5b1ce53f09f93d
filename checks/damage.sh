#!/usr/bin/env bash
# Damages real files, and small ones that are made to be hostile, RUNS times (by default 3,000), as
# the dice of the number SEED have it, in JOBS processes (by default one). Bytes are changed, copied
# from elsewhere, left out or put in, a number is set to the least or the greatest, or the file is
# cut off, half of the time in debugging information. Each time the built program, with options that
# change from run to run, ends within ten seconds with status 0, 1, 3 or 5, by no signal, stores or
# prints nothing unless it ends with 0, and complains one line of its form, or nothing on 0. The
# real files are the program of demo/ for this machine and, where compilers for them are installed,
# for others, of DWARF 4 and 5, as relocatable objects, as dwz leaves it, and with type tags of
# clang; BTF files, and split tables over a base, of which one or the other is damaged.
set -u
export LC_ALL=C
. "$(dirname "$0")/lib/program.sh"

need damage cc python3
scratch=$(mktemp -d) || exit 2
trap 'rm -rf "$scratch"' EXIT
sources=("$root/demo/registry.c" "$root/demo/main.c")
# a compiler, the file's name, and flags: a file that can't be built is skipped by name
build() {
  local compiler=$1 name=$2
  shift 2
  "$compiler" -w -g -o "$scratch/$name" "$@" 2>/dev/null ||
    echo "skipped damage $name: $compiler can't build it"
}
build cc elf.1 -gdwarf-5 "${sources[@]}"
build cc elf.2 -gdwarf-5 -m32 "${sources[@]}"
build powerpc64-linux-gnu-gcc elf.3 -gdwarf-5 "${sources[@]}"
build mips-linux-gnu-gcc elf.4 -gdwarf-5 "${sources[@]}"
build cc elf.5 -gdwarf-4 "${sources[@]}"
build cc elf.6 -gdwarf-5 -c "${sources[0]}"
build aarch64-linux-gnu-gcc elf.7 -gdwarf-4 -c "${sources[1]}"
cat >"$scratch/tags.c" <<'C'
int __attribute__((btf_type_tag("user"))) *where;
struct at { int __attribute__((btf_type_tag("rcu"))) *to; } at;
C
build clang elf.8 -glldb -c "$scratch/tags.c"
build clang elf.9 -gdwarf-5 "${sources[@]}"
build cc elf.10 -gdwarf-5 -gdwarf64 "${sources[@]}"
build s390x-linux-gnu-gcc elf.11 -gdwarf-4 "${sources[@]}"
[ -f "$scratch/elf.1" ] || exit 2
cp "$scratch/elf.1" "$scratch/elf.12"
dwz "$scratch/elf.12" 2>/dev/null || rm "$scratch/elf.12"
# BTF files: a table, and a split one over it
tables() {
  cd "$scratch" && "$program" --btf_encode_detached=btf.base elf.6 &&
    "$program" --btf_encode_detached=btf.split --btf_base=btf.base elf.1
}
(tables) || echo "failed damage: the base or the table over it can't be made"
python3 -B "$root/checks/lib/damage.py" "$program" "$scratch" "${RUNS:-3000}" \
  "${SEED:-20261127}" "${JOBS:-1}"
