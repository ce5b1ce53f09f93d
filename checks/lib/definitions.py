"""definitions.py PAGE: writes to PAGE every definition on the way from the clauses of `run` to
bytes, with its sentence. The way is followed through `specs/`: from the names that the clauses cite
to those that their definitions cite, and so on."""
import functools
import re
import sys
from pathlib import Path

from pages import CRATES, found, read, tell

START = "crates/pahole_run/src/top.rt"
NAME = re.compile(r"[A-Za-z]\w*")
USE = re.compile(r"^(?:ghost )?use Rattle\.(\w+)\.specs\.(\w+)\.\{([^}]*)\}", re.M)
# a definition is a paragraph: a comment, the line with its name, and what follows
DEFINED = re.compile(
    r"((?:^--.*\n)*)^(?:(?:abbrev|unfoldable) pub|pub (?:record|data)) (\w+)(.*(?:\n.+)*)", re.M
)
FIELD = re.compile(r"(?:pub|\.)\s*\w+\s*(?:=[^=]|:)|\.\w+")


@functools.lru_cache(maxsize=None)
def imports(path):
    """What each name that a file takes from others stands for: a file of specs/, and its name."""
    taken = {}
    for crate, file, names in USE.findall(read(path)):
        for old, _, new in (name.strip().partition(" as ") for name in names.split(",")):
            taken[new or old] = (f"crates/{crate}/specs/{file}.antt", old)
    return taken


def sentence(comment):
    return " ".join(line[3:] for line in comment.splitlines())


@functools.lru_cache(maxsize=None)
def definitions(path):
    """The definitions of a file by name: the sentence of each, and its text."""
    parts = DEFINED.findall(read(path)) if found(path) else []
    return {name: (sentence(comment), FIELD.sub(" ", text)) for comment, name, text in parts}


# the names of all definitions on the way, by file; a name that a file defines is its own
seen = {}
clauses = re.findall(r"^    ensures .*", read(START).partition("fn refuse_words")[0], re.M)
todo = [(START, word) for word in NAME.findall(" ".join(clauses))]
while todo:
    path, name = todo.pop()
    if name not in definitions(path):
        path, name = imports(path).get(name, (START, ""))
    if name in definitions(path) and name not in seen.setdefault(path, set()):
        seen[path].add(name)
        todo += [(path, word) for word in NAME.findall(definitions(path)[name][1])]
lines = ["# The definitions on the way from the clauses of `run` to bytes"]
for path in sorted(seen, key=lambda path: (-CRATES.index(path.split("/")[1]), path)):
    lines += ["", f"## `{path[7:]}`", "", sentence(re.match(r"(?:--.*\n)*", read(path))[0]), ""]
    told = {name: text for name, (text, _) in definitions(path).items() if name in seen[path]}
    lines += [f"- `{name}`" + f": {text}" * bool(text) for name, text in told.items()]
Path(sys.argv[1]).write_text("\n".join(lines) + "\n", encoding="utf-8")
tell("definitions", [], f"{sum(map(len, seen.values()))} on the way from `run` to bytes")
