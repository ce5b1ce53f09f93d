"""bugs.py [PAGE]: whether each edit that must fail names its class in its first line; with PAGE the
edits by crate and class are written there. One in parentheses stands in crates/NAME/more-edits: the
gate does not try it, and `make edits` does."""
import sys
from pathlib import Path

from pages import found, read, tell

CLASSES = [
    *("swapped field", "lost case", "off by one", "fault elsewhere", "slice", "stale value"),
    *("missed refusal", "early give-up", "another value"),
]
rows, faults = {}, []
paths = found("crates/*/m*/*.edit")
for path in paths:
    _, crate, folder, file = path.split("/")
    kind, name = read(path).split("\n")[0].removeprefix("class: "), f"`{file[:-5]}`"
    if kind not in CLASSES:
        faults.append(f"{path} names no class")
    rows.setdefault((crate, kind), []).append(name if folder == "must-fail" else f"({name})")
for page in sys.argv[1:]:
    lines = ["# Bugs planted by hand", "", "| Crate | Class | Edits |", "|---|---|---|"]
    for (crate, kind), names in sorted(rows.items()):
        lines.append(f"| `{crate}` | {kind} | {', '.join(names)} |")
    Path(page).write_text("\n".join(lines) + "\n", encoding="utf-8")
few = len(found("crates/*/must-fail/*.edit"))
tell("edits", faults, f"{len(paths)} edits, {few} of them in the gate")
