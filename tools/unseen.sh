#!/usr/bin/env bash
# unseen.sh [NAME..]: applies each edit of tools/unseen (or those named) to a copy of the
# repository, and proves the edited crate. Each is a wrong program, or an equal one, that
# docs/PROOF.md says no clause refuses. An edit has the form of a must-fail edit, behind a line
# `crate: NAME`; it may change several files, each behind a line `file: PATH` of its own, and a line
# `and: TEXT` adds one behind the new one. What its proof needs besides lies in a folder of the
# edit's name, each file with `.txt` behind its name, and is put beside the crate's. `passed` is
# what is proved. No check runs this, for each edit costs a check of its crate: `make unseen`. CHECK
# is what checks a crate in its folder, by default `rt check`.
set -u
export LC_ALL=C.UTF-8
root=$(cd "$(dirname "$0")/.." && pwd) || exit 2
. "$root/checks/lib/need.sh"
need unseen rt python3
scratch=$(mktemp -d) || exit 2
trap 'rm -rf "$scratch"' EXIT

# The copy has the sources, and of each crate that was checked here what its check kept, so that the
# edited crate alone is proved.
mkdir "$scratch/copy"
cp -r "$root/crates.txt" "$root/HANDLES" "$scratch/copy" || exit 2
cp -a "$root/crates" "$scratch/copy/crates" || exit 2

# An edit's lines, put into the crate's files; prints why it can't be.
apply() {
  python3 - "$1" "$2" <<'PY'
import sys

edit, folder = sys.argv[1:]
path = old = None
with open(edit) as lines:
    for line in lines.read().splitlines():
        word, _, text = line.partition(": ")
        if word == "file":
            path = f"{folder}/{text.strip()}"
        elif word == "old":
            old = text.strip()
        elif word in ("new", "and"):
            new = text.strip() if word == "new" else f"{old}\n{text}"
            with open(path) as file:
                whole = file.read()
            count = whole.count(old)
            if count != 1:
                sys.exit(f"{old!r} stands {count} times in {path.removeprefix(folder + '/')}")
            with open(path, "w") as file:
                file.write(whole.replace(old, new))
            old = new
PY
}

failed=0
if [ $# = 0 ]; then edits=("$root"/tools/unseen/*.edit); else edits=("$@"); fi
for name in "${edits[@]}"; do
  name=$(basename "$name" .edit)
  edit=$root/tools/unseen/$name.edit
  crate=$(sed -n 's/^crate: //p' "$edit")
  folder=$scratch/copy/crates/$crate
  if [ -d "$root/tools/unseen/$name" ]; then
    cp -r "$root/tools/unseen/$name/." "$folder"
    find "$folder/proofs" -name '*.txt' -exec sh -c 'mv "$1" "${1%.txt}"' _ {} \;
  fi
  if ! why=$(apply "$edit" "$folder" 2>&1); then
    echo "failed $name: $why"
    failed=1
  elif (cd "$folder" && ${CHECK:-rt check}) >"$scratch/log" 2>&1; then
    echo "passed $name: $crate is proved with it, as docs/PROOF.md says"
  else
    why=$(grep -m 1 -E ': error|error\[' "$scratch/log" || tail -n 1 "$scratch/log")
    echo "failed $name: $crate is not proved with it: $why"
    failed=1
  fi
  for part in src specs proofs; do
    rm -rf "${folder:?}/$part"
    whole=$root/crates/$crate/$part
    if [ -d "$whole" ]; then cp -a "$whole" "$folder/$part"; fi
  done
done
exit $failed
