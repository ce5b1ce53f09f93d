#!/usr/bin/env bash
# The manual page docs/man/pahole.1: groff and mandoc read it without a warning, each skipped by
# name where it is not installed. Its options are those of the table that the words are read by.
set -u
export LC_ALL=C
root=$(cd "$(dirname "$0")/.." && pwd) || exit 2
page=$root/docs/man/pahole.1
scratch=$(mktemp -d) || exit 2
trap 'rm -rf "$scratch"' EXIT

# a name and the command that says what it finds wrong
quiet() {
  local name=$1 said
  shift
  if ! command -v "$1" >/dev/null; then
    echo "skipped manual $name: it is not installed"
  elif said=$("$@" 2>&1) && [ -z "$said" ]; then
    echo "passed manual $name"
  else
    echo "failed manual $name: ${said//$'\n'/; }"
  fi
}

quiet groff groff -man -Tutf8 -ww -z "$page"
quiet mandoc mandoc -Tlint -Wstyle "$page"

# an option as its spelling alone: a long one up to its `=`, a short one without its value
spellings() { sed -E 's/^(--[a-z_]+=).*/\1/; s/^(-[A-Za-z]).*/\1/' | sort -u; }

# the paragraphs with a tag under OPTIONS
awk '
  /^\.SH / { inside = ($2 == "OPTIONS") }
  inside && tagged { print; tagged = 0 }
  inside && /^\.TP/ { tagged = 1 }' "$page" |
  sed -E 's/^\.[BI]+ //; s/\\-/-/g' | spellings >"$scratch/page"
# `--` is a role of a word and no row of the table
{
  echo "--"
  sed -n 's/.*(codes "\(-[^"]*\)").*/\1/p' "$root/crates/command_line/specs/Options.antt"
} | spellings >"$scratch/table"

if said=$(diff "$scratch/page" "$scratch/table"); then
  echo "passed manual options: the page and the table have $(wc -l <"$scratch/page")"
else
  echo "failed manual options: the page and the table differ: ${said//$'\n'/; }"
fi
