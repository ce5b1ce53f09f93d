#!/usr/bin/env bash
# demo.sh PROGRAM: encodes the smallest file, of one `int`; then compiles the C program of demo/
# with debugging information, encodes its types, prints the layout of a structure with holes, and
# shows the types as another reader of BTF does, where one is installed. Without a C compiler the
# first is all.
set -eu
program=$(cd "$(dirname "$1")" && pwd)/$(basename "$1")
root=$(cd "$(dirname "$0")/.." && pwd)
. "$root/checks/lib/hex.sh"
work=$(mktemp -d)
trap 'rm -rf "$work"' EXIT
cp -r "$root/demo" "$work/demo"
cd "$work"

# FILE: how long it is
tell() {
  echo "\$ wc -c $1"
  wc -c "$1"
}

# a program's words: shows a run of it
pahole() {
  echo "\$ pahole $*"
  "$program" "$@"
}

unhex <"$root/crates/run_cases/data/one-base-type/file.a.hex" >int
tell int
pahole --btf_encode_detached=int.btf int
tell int.btf
echo "\$ od -An -tx1 -v int.btf"
od -An -tx1 -v int.btf

if ! command -v cc >/dev/null; then exit 0; fi
echo "\$ cc -g -gdwarf-5 -o registry demo/registry.c demo/main.c"
cc -g -gdwarf-5 -o registry demo/registry.c demo/main.c
tell registry
pahole --btf_encode_detached=registry.btf registry
tell registry.btf
pahole -C packet registry
pahole -s -H 1 registry

bpftool=$(PATH=$PATH:/usr/sbin:/sbin command -v bpftool) || exit 0
echo "\$ bpftool btf dump file registry.btf format c"
"$bpftool" btf dump file registry.btf format c
