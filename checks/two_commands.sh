#!/usr/bin/env bash
# What an encoding run stores, read by `-F btf`, shows the same types as the file itself: their
# layouts, and their sizes. The files are the program of demo/, it as a shared library, an object
# of what the C library's headers declare and one of what libbpf's do, as `cc` and clang compile
# them; and demo/ over the table of the C library's headers.
set -u
export LC_ALL=C
. "$(dirname "$0")/lib/program.sh"

need two_commands cc
scratch=$(mktemp -d) || exit 2
trap 'rm -rf "$scratch"' EXIT

headers() {
  local header
  for header in arpa/inet.h dirent.h fcntl.h locale.h netdb.h poll.h pthread.h pwd.h sched.h \
    semaphore.h signal.h stdio.h sys/epoll.h sys/resource.h sys/socket.h sys/stat.h sys/statvfs.h \
    sys/sysinfo.h sys/time.h sys/uio.h sys/un.h termios.h time.h ucontext.h unistd.h utime.h; do
    echo "#include <$header>"
  done
}

# whether both show the same for these words
show_alike() {
  "$program" "$@" "$scratch/o" >"$scratch/file" 2>&1 </dev/null || return 1
  "$program" -F btf "$@" "$scratch/t" >"$scratch/table" 2>&1 </dev/null || return 1
  [ -s "$scratch/file" ] && cmp -s "$scratch/file" "$scratch/table"
}

# a compiler, and what it compiled: the file is $scratch/o
compare() {
  if ! "$program" --btf_encode_detached="$scratch/t" "$scratch/o" 2>"$scratch/said"; then
    echo "failed two_commands $*: $(cat "$scratch/said")"
  elif ! show_alike || ! show_alike -s || ! show_alike -s -H 1 -c 32; then
    echo "failed two_commands $*: the file and its table show other types"
  else
    echo "passed two_commands $*: $("$program" -s "$scratch/o" | wc -l) types"
  fi
}

# the lines of a file that another one lacks
lacking() {
  comm -23 <(sort -u "$1") <(sort -u "$2")
}

# whether the file shows what its table adds to the base, and nothing that neither of them has
show_between() {
  "$program" -s "$scratch/o" >"$scratch/file" </dev/null || return 1
  "$program" -F btf -s "$scratch/base" >"$scratch/first" </dev/null || return 1
  "$program" -F btf -s --btf_base="$scratch/base" "$scratch/t" >"$scratch/own" </dev/null ||
    return 1
  cat "$scratch/first" "$scratch/own" >"$scratch/all"
  [ -s "$scratch/own" ] && [ -z "$(lacking "$scratch/own" "$scratch/file")" ] &&
    [ -z "$(lacking "$scratch/file" "$scratch/all")" ]
}

# the same over the table of the file that was compared before
compare_over() {
  mv "$scratch/t" "$scratch/base"
  if ! "$program" --btf_encode_detached="$scratch/t" --btf_base="$scratch/base" "$scratch/o" \
    2>"$scratch/said"; then
    echo "failed two_commands $*: $(cat "$scratch/said")"
  elif ! show_between; then
    echo "failed two_commands $*: the file shows other types than the base and its table"
  else
    echo "passed two_commands $*: $(wc -l <"$scratch/own") types beside the base's"
  fi
}

# compiles, with debugging information of all types; what the compiler says is kept
compile() {
  "$compiler" -g -fno-eliminate-unused-debug-types -D_GNU_SOURCE -o "$scratch/o" "$@" \
    2>"$scratch/said"
}

# a name, a call that compares, and what is compiled for it
look() {
  local name=$1 call=$2
  shift 2
  if compile "$@"; then
    "$call" "$compiler" "$name"
  else
    echo "failed two_commands $compiler $name: it is not compiled: $(head -n 1 "$scratch/said")"
  fi
}

demo=("$root/demo/registry.c" "$root/demo/main.c")
headers >"$scratch/headers.c"
for compiler in cc clang; do
  if ! command -v $compiler >/dev/null; then
    echo "skipped two_commands $compiler: it is not installed"
    continue
  fi
  look demo compare "${demo[@]}"
  look library compare -shared -fPIC "${demo[@]}"
  look headers compare -c "$scratch/headers.c"
  look "demo over headers" compare_over "${demo[@]}"
  if echo '#include <bpf/btf.h>' | $compiler -E - >/dev/null 2>&1; then
    look structures compare -c "$root/checks/lib/structures.c"
  else
    echo "skipped two_commands $compiler structures: libbpf's headers are not installed"
  fi
done
