#!/usr/bin/env bash
# BTF files of other writers are read: the built program shows the sizes of their structures, and
# where bpftool is installed, these are the sizes that it tells of the same file. The writers are
# the tool pahole, clang for the BPF target in both byte orders, and the kernel that this machine
# runs. A writer that isn't here is skipped by name.
set -u
export LC_ALL=C
. "$(dirname "$0")/lib/program.sh"

scratch=$(mktemp -d) || exit 2
trap 'rm -rf "$scratch"' EXIT

cat >"$scratch/types.c" <<'C'
struct list_head { struct list_head *next, *prev; };
enum color { RED = -1, GREEN = 5 };
enum big { FAR = 0x1122334455667788ULL };
union word { int i; float f; double d; char c[3]; };
struct registry {
	struct list_head list;
	enum color color;
	enum big big;
	union word word;
	unsigned live : 3, kind : 5;
	int (*compare)(struct registry *, const char *, ...);
	volatile long *restrict count;
	short grid[3][4];
	char tail[];
};
typedef struct { int a; struct { int in; union { int q; long w; }; } inner; } nested;
typedef struct registry registry_type;
struct elsewhere;
struct owner { struct elsewhere *of; _Bool is; nested nested; };

registry_type all;
struct owner owner;
static volatile int used = 3;

int first(int word, const char **words) { return all.live + owner.is + used + word + words[0][0]; }
C

# The names and sizes that bpftool tells of a file, in the order of ids: of structures and unions
# with a name, and of typedefs of those without one.
told() {
  bpftool btf dump file "$1" format raw | awk '
    /^\[/ {
      id = substr($1, 2, length($1) - 2)
      kind[id] = $2
      name[id] = substr($3, 2, length($3) - 2)
      split($4, word, "=")
      number[id] = word[2]
      last = id + 0
    }
    function is_structure(id) { return kind[id] == "STRUCT" || kind[id] == "UNION" }
    END {
      for (id = 1; id <= last; id++) {
        to = number[id]
        if (is_structure(id) && name[id] != "(anon)") print name[id] "\t" number[id]
        if (kind[id] == "TYPEDEF" && is_structure(to) && name[to] == "(anon)")
          print name[id] "\t" number[to]
      }
    }'
}

# the writer's name and its file
reads() {
  "$program" -F btf -s "$2" >"$scratch/had" 2>"$scratch/complaint"
  local status=$?
  if [ "$status" != 0 ]; then
    echo "failed $1: status $status, $(head -n 1 "$scratch/complaint")"
  elif [ ! -s "$scratch/had" ]; then
    echo "failed $1: no structure is shown"
  elif command -v bpftool >/dev/null; then
    told "$2" >"$scratch/told"
    cut -f 1,2 "$scratch/had" >"$scratch/sizes"
    if cmp -s "$scratch/told" "$scratch/sizes"; then
      echo "passed $1: $(wc -l <"$scratch/sizes" | tr -d ' ') sizes"
    else
      echo "failed $1: $(diff "$scratch/told" "$scratch/sizes" | sed -n 2p)"
    fi
  else
    echo "passed $1: read"
  fi
}

command -v bpftool >/dev/null || echo "skipped bpftool: it is not installed"

if ! command -v cc >/dev/null || [[ $(pahole --version 2>/dev/null) != v* ]]; then
  echo "skipped the tool pahole: it or a C compiler is not installed"
elif cc -g -c -o "$scratch/types.o" "$scratch/types.c" &&
  pahole --btf_encode_detached="$scratch/pahole.btf" "$scratch/types.o"; then
  reads "the tool pahole" "$scratch/pahole.btf"
else
  echo "skipped the tool pahole: it writes no file"
fi

cutter=$(command -v llvm-objcopy || command -v objcopy)
for target in bpfel bpfeb; do
  if ! command -v clang >/dev/null || [ -z "$cutter" ]; then
    echo "skipped clang $target: clang or objcopy is not installed"
  elif clang -target "$target" -g -O2 -c -o "$scratch/$target.o" "$scratch/types.c" 2>/dev/null &&
    "$cutter" --dump-section .BTF="$scratch/$target.btf" "$scratch/$target.o" /dev/null \
      2>/dev/null; then
    reads "clang $target" "$scratch/$target.btf"
  else
    echo "skipped clang $target: it writes no file, or $cutter can't cut it out"
  fi
done

if [ -r /sys/kernel/btf/vmlinux ]; then
  reads "the kernel" /sys/kernel/btf/vmlinux
else
  echo "skipped the kernel: it has no file of its types"
fi
