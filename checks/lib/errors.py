"""errors.py [write]: docs/ERRORS.md has the rows that docs/errors.toml makes, the program the
explanations, and they have its errors, sections and counts of values; no page tells of another
number. With `write` rows and explanations are written first."""
import re
import sys
import textwrap
import tomllib

from pages import PAGES, ROOT, alone, read, tell

SECTIONS = {"Image": "image", "Info": ".debug_info", "Abbrev": ".debug_abbrev", "Btf": "btf"}
KEPT = {"bare": 0, "keeping": 1, "keeping_two": 2, "of_whole": 1}
DATA = tomllib.loads(read("docs/errors.toml"))
ERRORS, USAGE, LAYERS = DATA["error"], DATA["usage"], {}
for entry in ERRORS + USAGE:
    LAYERS.setdefault(entry.get("layer", "usage"), []).append(entry)


def cells(row):
    """The cells of an error or a usage code."""
    if "code" in row:
        return [str(row["code"]), row["fault"], row["at"], row["cause"], row["cure"]]
    place = f"{' or '.join(f'`{section}`' for section in row['section'])}: {row['at']}"
    name, values = f"{row['number']} `{row['name']}`", "; ".join(row["keeps"]) or "none"
    return [name, row["fault"], place, values, row["cause"], row["cure"]]


def lines_of(rows):
    return "".join(f"| {' | '.join(cells(row))} |\n" for row in rows)


def explanation(row):
    """The item of the program's explanations for an error or a usage code."""
    name, fault, place, *values, cause, cure = cells(row)
    kind, at, start = ("usage", "Word", "usage") if "code" in row else ("error", "Place", "")
    parts = [f"{kind} {name.replace('`', '')}: {fault}", f"{at}: {place}"]
    parts += [f"Values: {value}" for value in values if value != "none"]
    parts += [f"Cause: {cause}", f"What to do: {cure}"]
    lines = "\n".join(textwrap.fill(part, 84, subsequent_indent="  ") for part in parts)
    text, key = lines.replace("\\", "\\\\").replace('"', '\\"'), start + name.split(" ")[0]
    return f'    Explanation {{\n        key: "{key}",\n        text: "\\\n{text}\n",\n    }},\n'


def explanations_of(rows):
    return f"{len(rows)}] = [\n{''.join(map(explanation, rows))}"


# where the table of a layer begins, up to what is made, and what is made of its rows
TABLES = {
    "docs/ERRORS.md": (r"(<!-- {0} -->\n\n.*\n.*\n)(?:\|.*\n)*", lines_of),
    "crates/pahole_help/src/explanations.rt": (
        r"(static {1}: .*; )\d+(?:.*\n)*?(?=\];)",
        explanations_of,
    ),
}


def other_tables():
    """The page and the source that don't have what the data makes."""
    for path, (start, make) in TABLES.items():
        text = read(path)
        for layer, rows in LAYERS.items():
            pattern, new = start.format(layer, layer.upper()), make(rows)
            text, count = re.subn(pattern, lambda found: found[1] + new, text)
            assert count == 1, pattern
        if sys.argv[1:] == ["write"]:
            (ROOT / path).write_text(text, encoding="utf-8")
        elif text != read(path):
            yield f"the data makes another {path}"


def other_errors():
    """Numbers, usage codes, sections and counts of values that the program has otherwise."""
    source = read("crates/dw_base/src/fault_numbers.rt")
    known = re.findall(r"^pub const (\w+): u32 = (\d+);", source, re.M)
    yield from alone({(row["name"], str(row["number"])) for row in ERRORS}, set(known))
    if not len({number for _, number in known}) == len(known) == len(ERRORS):
        yield "a number stands twice"
    codes = re.findall(r"^/// \| (\d+) \|", read("crates/command_line/src/job.rt"), re.M)
    if codes != [str(row["code"]) for row in USAGE]:
        yield f"the usage codes are {codes}"
    ends = re.compile(r"=\s+(\w+)\s+(?:\w+\s+sections\.(\w+)\s+\w+\s+)?numbers\.(\w+)")
    layers = ends.findall(read("crates/pahole_run/specs/Layers.antt"))
    there = {(name, SECTIONS.get(section, "table"), KEPT[way]) for way, section, name in layers}
    told = {(row["name"], one, len(row["keeps"])) for row in ERRORS for one in row["section"]}
    yield from alone(told, there)


def other_texts():
    """Rows that fit no table, and numbers in pages that no error has."""
    for row in ERRORS + USAGE:
        if re.search(r"[|\n]", "".join(cells(row))) or not row["cure"].endswith("."):
            yield f"{cells(row)[0]} is no line of a table"
    numbers = {str(row["number"]) for row in ERRORS}
    for page in PAGES:
        named = set(re.findall(r"\berror (\d+)", read(page)))
        yield from (f"{page} tells of {one}" for one in sorted(named - numbers))


wrong = [*other_tables(), *other_errors(), *other_texts()]
tell("errors", wrong, f"{len(ERRORS)} errors, {len(USAGE)} usage codes")
