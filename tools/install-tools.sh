#!/usr/bin/env bash
# Installs what the checks use beside a C compiler and Python, from Debian's packages: other readers
# of BTF and DWARF, compilers for 32 bits and for machines with big-endian numbers, clang, readers
# of manual pages, and what `make measure` times with. Nothing calls this but a person: the checks
# skip what is missing, by name. gcc-multilib itself can't stand beside a compiler for another
# machine; the package of gcc's version can.
set -eu
apt-get update
apt-get install -y --no-install-recommends \
  bpftool libbpf-dev pahole \
  "gcc-$(gcc -dumpversion)-multilib" \
  gcc-powerpc64-linux-gnu libc6-dev-ppc64-cross \
  gcc-s390x-linux-gnu libc6-dev-s390x-cross \
  gcc-mips-linux-gnu libc6-dev-mips-cross \
  gcc-aarch64-linux-gnu libc6-dev-arm64-cross \
  gcc-arm-linux-gnueabihf \
  clang lld dwz \
  codespell groff mandoc \
  hyperfine time
