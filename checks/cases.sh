#!/usr/bin/env bash
# Runs the built program on each folder of crates/run_cases/data (see the README.md there) and
# compares the exit status, standard output, standard error, the stored file `o` and the files left
# behind, byte by byte. Folders that need limits of their own or a world that fails are for the
# program run_cases alone. The lists of both programs of cases have all that lies there.
set -u
export LC_ALL=C
. "$(dirname "$0")/lib/program.sh"

scratch=$(mktemp -d) || exit 2
trap 'rm -rf "$scratch"' EXIT
run=$scratch/run want=$scratch/want

# what, wanted bytes, bytes had: prints what differs
differs() {
  cmp -s "$2" "$3" && return 1
  echo "$1: wanted $(wc -c <"$2") bytes, had $(wc -c <"$3")"
}

for folder in "$root"/crates/run_cases/data/*/; do
  name=$(basename "$folder")
  if [ -f "${folder}limits" ] || [ -f "${folder}stops" ]; then continue; fi
  rm -rf "$run" "$want"
  mkdir "$run" "$want" || exit 2
  for file in "$folder"file.*.hex; do
    [ -f "$file" ] || continue
    input=$(basename "$file" .hex)
    unhex <"$file" >"$run/${input#file.}"
    unhex <"$file" >"$want/${input#file.}"
  done
  [ -f "${folder}stored.o.hex" ] && unhex <"${folder}stored.o.hex" >"$want/o"
  sed -n 's/^complaint //p' "${folder}expect" >"$scratch/stderr"
  : >"$scratch/stdout"
  [ -f "${folder}printed.txt" ] && cp "${folder}printed.txt" "$scratch/stdout"
  status=$(sed -n 's/^status //p' "${folder}expect")

  words=()
  while IFS= read -r word || [ -n "$word" ]; do words+=("$word"); done <"${folder}words"
  (cd "$run" && exec "$program" ${words[@]+"${words[@]}"}) \
    >"$scratch/out" 2>"$scratch/err" </dev/null
  had=$?

  wrong=$(
    [ "$had" = "$status" ] || echo "status $status wanted, $had had"
    differs "standard output" "$scratch/stdout" "$scratch/out"
    differs "standard error" "$scratch/stderr" "$scratch/err"
    diff -rq "$want" "$run"
  )
  if [ -z "$wrong" ]; then echo "passed $name"; else echo "failed $name: ${wrong//$'\n'/; }"; fi
done

# The largest made input, which takes too long for the program run_cases. It has many rounds: a
# program that goes over all nodes in each of them does not end in a minute.
said=$(timeout 60 "$program" --selfmade=8388607 2>&1)
had=$?
if [ "$had" = 124 ]; then
  echo "failed selfmade-8388607: it runs for more than 60 seconds"
elif [ "$said" = "units 1024, entries 2100224, types 16387, bytes 398366" ]; then
  echo "passed selfmade-8388607"
else
  echo "failed selfmade-8388607: status $had, $said"
fi

# What the programs of the gate count is all that lies there; btf_cases makes two cases more.
for crate in run_cases btf_cases; do
  data=$root/crates/$crate/data
  if [ "$crate" = run_cases ]; then
    (cd "$data" && ls -d -- */) | tr -d / | sort >"$scratch/there"
    count=$(wc -l <"$scratch/there")
  else
    (cd "$data" && ls -I list -I README.md) | sort >"$scratch/there"
    count=$((2 + $(cat "$data"/* | grep -c '^case ')))
  fi
  if wrong=$(sort "$data/list" | diff - "$scratch/there") &&
    grep -qx "$count cases, 0 differ" "$root/crates/$crate/stdout"; then
    echo "passed list of $crate: $count"
  else
    echo "failed list of $crate: $count cases; ${wrong//$'\n'/; }"
  fi
done
