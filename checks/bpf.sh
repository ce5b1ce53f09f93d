#!/usr/bin/env bash
# BPF's tools on what the program stores of demo/: the C text that bpftool writes of the table
# compiles; type tags of clang are kept in it; bpftool finds in the table what the relocations of a
# BPF program (CO-RE, checks/lib/core.c) ask for, the same as in the table of Debian's pahole; and
# libbpf opens that program with the table. Of the demo in two halves bpftool reads the table of the
# one over that of the other. Nothing is loaded into a kernel. What is not installed is skipped by
# name.
set -u
export LC_ALL=C PATH=$PATH:/usr/sbin:/sbin
. "$(dirname "$0")/lib/program.sh"

need bpf cc bpftool
scratch=$(mktemp -d) || exit 2
trap 'rm -rf "$scratch"' EXIT
cd "$scratch" || exit 2
# a name, and a command that passes or fails
tries() {
  local name=$1 said
  shift
  if said=$("$@" 2>&1); then
    echo "passed bpf $name"
  else
    echo "failed bpf $name: ${said//$'\n'/; }"
  fi
}
text_compiles() { bpftool btf dump file "$1" format c >text.h && cc -w -x c -fsyntax-only text.h; }
keeps_tags() {
  text_compiles tags.btf && [ "$(grep -c 'btf_type_tag("user")' text.h)" = 2 ] &&
    grep -q '\* __attribute__((btf_type_tag("user"))) \*twice' text.h
}
asked_of() {
  bpftool gen min_core_btf "$1" "$1.min" core.o && bpftool btf dump file "$1.min" format raw
}
finds_fields() {
  asked_of demo.btf >ours && grep -q "STRUCT 'packet'" ours && grep -q "STRUCT 'registry'" ours
}
# the demo's two sources, the second one's types over the first one's: bpftool counts on behind the
# base's types
reads_halves() {
  local first
  cc -w -g -c -o base.o "$root/demo/registry.c" || return
  cc -w -g -c -o module.o "$root/demo/main.c" || return
  "$program" --btf_encode_detached=base.btf base.o || return
  "$program" --btf_encode_detached=module.btf --btf_base=base.btf module.o || return
  bpftool btf dump file base.btf >base.txt || return
  bpftool btf dump -B base.btf file module.btf >split.txt || return
  first=$(sed -n '1s/^\[\([0-9]*\)\].*/\1/p' split.txt)
  [ "$first" = $(($(grep -c '^\[' base.txt) + 1)) ] || return
  grep -q "STRUCT 'cursor'" split.txt && grep -q "STRUCT 'packet'" base.txt &&
    ! grep -q "STRUCT 'packet'" split.txt
}
finds_the_same() { asked_of demo.btf >ours && asked_of other.btf >theirs && diff ours theirs; }

cc -w -g -o demo "$root/demo/registry.c" "$root/demo/main.c" || exit 2
"$program" --btf_encode_detached=demo.btf --funcs demo ||
  echo "failed bpf demo: it can't be encoded"
tries "the C text of the demo" text_compiles demo.btf
tries "the demo in two halves, one over the other" reads_halves
if ! command -v clang >/dev/null ||
  ! clang -target bpf -w -O2 -g -c -o core.o "$root/checks/lib/core.c" 2>/dev/null; then
  echo "skipped bpf clang: it or its BPF target is not installed"
  exit
fi
cat >tags.c <<'C'
#define user __attribute__((btf_type_tag("user")))
struct inner { int value; };
struct outer { struct inner user *there; int user *user *twice; } all;
C
clang -g -glldb -c -o tags.o tags.c && "$program" --btf_encode_detached=tags.btf tags.o
tries "type tags in the C text" keeps_tags
tries "fields of a program's relocations" finds_fields
if pahole --btf_encode_detached=other.btf demo 2>/dev/null; then
  tries "the same fields as in the table of the tool pahole" finds_the_same
else
  echo "skipped bpf pahole: it is not installed"
fi
cat >open.c <<'C'
#include <bpf/libbpf.h>

int main(int count, char **words)
{
	LIBBPF_OPTS(bpf_object_open_opts, options, .btf_custom_path = words[2]);
	struct bpf_object *object = count == 3 ? bpf_object__open_file(words[1], &options) : NULL;

	if (!object || libbpf_get_error(object) || !bpf_object__next_program(object, NULL))
		return 1;
	bpf_object__close(object);
	return 0;
}
C
if cc -o open open.c -lbpf 2>/dev/null; then
  tries "a program that libbpf opens with the table" ./open core.o demo.btf
else
  echo "skipped bpf libbpf: its headers are not installed"
fi
