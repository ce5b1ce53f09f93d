#!/usr/bin/env bash
# The words that are the program's own, each as the only one: the page of `--help` has every option,
# `--version` names the toolchain that the README names, and `--explain=N` explains each error and
# each usage code of docs/errors.toml and nothing else. All other words are those of a run.
set -u
export LC_ALL=C
. "$(dirname "$0")/lib/program.sh"
scratch=$(mktemp -d) || exit 2
trap 'rm -rf "$scratch"' EXIT

# name, wanted status, wanted standard error, words: what is printed lies in $scratch/out
ends() {
  local name=$1 status=$2 said=$3 had err
  shift 3
  "$program" "$@" >"$scratch/out" 2>"$scratch/err" </dev/null
  had=$? err=$(cat "$scratch/err")
  if [ "$had" != "$status" ]; then
    echo "failed words $name: status $status wanted, $had had"
  elif [ "$err" != "$said" ]; then
    echo "failed words $name: standard error has: $err"
  elif [ "$status" != 0 ] && [ -s "$scratch/out" ]; then
    echo "failed words $name: something is printed"
  else
    echo "passed words $name"
  fi
}

ends help 0 "" --help
lines=$(wc -l <"$scratch/out")
missing=
while IFS= read -r option; do
  grep -q -- "^  $option" "$scratch/out" || missing="$missing $option"
done < <(sed -n 's/.*(codes "\(-[^"]*\)").*/\1/p' "$root/crates/command_line/specs/Options.antt")
if [ -n "$missing" ] || [ "$lines" -gt 40 ]; then
  echo "failed words page of help: $lines lines, without${missing:- nothing}"
else
  echo "passed words page of help: $lines lines"
fi

ends version 0 "" --version
kit=$(tr '\n' ' ' <"$root/README.md" | sed -n 's/.*`rt version` prints `\([^`]*\)`.*/\1/p')
printf 'pahole 1.0.0\nproved by %s\n' "$kit" >"$scratch/want"
if cmp -s "$scratch/want" "$scratch/out"; then
  echo "passed words page of version"
else
  echo "failed words page of version: $(tr '\n' ' ' <"$scratch/out")"
fi

if command -v rt >/dev/null && [ "$(rt version)" != "$kit" ]; then
  echo "note: the toolchain here is $(rt version), not $kit"
fi

# each error and each usage code: the first word of its page, and its name
wrong= count=0
while read -r key head name; do
  "$program" "--explain=$key" >"$scratch/out" 2>"$scratch/err" </dev/null
  had=$?
  read -r kind number first _ <"$scratch/out"
  if [ "$had" != 0 ] || [ -s "$scratch/err" ] || [ "$kind" != "$head" ] ||
    [ "$(grep -c '^Cause: \|^What to do: ' "$scratch/out")" != 2 ] ||
    [ "${number%:}" != "${key#usage}" ] ||
    { [ "$head" = error ] && [ "$first" != "$name:" ]; }; then
    wrong="$wrong $key"
  fi
  count=$((count + 1))
done < <(
  sed -n 's/^number = //p; s/^name = "\(.*\)"$/\1/p' "$root/docs/errors.toml" |
    paste -d ' ' - - | sed 's/ / error /'
  sed -n 's/^code = \(.*\)/usage\1 usage -/p' "$root/docs/errors.toml"
)
if [ -z "$wrong" ] && [ "$count" -gt 7 ]; then
  echo "passed words explanations: $count"
else
  echo "failed words explanations:$wrong of $count"
fi

unexplained="pahole: --explain takes the number of an error, or usage1 to usage7"
for key in 999 "" 061 +61 "61 " usage0 usage8 usage 61x; do
  ends "explain '$key'" 2 "$unexplained" "--explain=$key"
done

# one word more, or another spelling, is a run's
ends "help and a file" 2 "pahole: word 0: usage 1" --help file
ends "a file and version" 2 "pahole: word 1: usage 1" file --version
ends "explain twice" 2 "pahole: word 0: usage 1" --explain=61 --explain=62
ends "help and more" 2 "pahole: word 0: usage 1" --helpless
ends "explain without =" 2 "pahole: word 0: usage 1" --explain
ends "a file of that name" 3 "pahole: cannot read --help" -- --help

for word in --help --version --explain=61; do
  if [ ! -w /dev/full ]; then
    echo "skipped words $word to a full output: there is no /dev/full"
    continue
  fi
  said=$("$program" "$word" 2>&1 >/dev/full </dev/null)
  had=$?
  if [ "$had" = 3 ] && [ "$said" = "pahole: cannot print" ]; then
    echo "passed words $word to a full output"
  else
    echo "failed words $word to a full output: status $had: $said"
  fi
done
