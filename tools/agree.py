"""agree.py PROGRAM [--funcs] FILE..: whether PROGRAM and Debian's tool pahole, or one whose path
is PEER, write the same types for each FILE. Both tables are compared by what their types are, not
by ids: each type with a name, with its size, its members, their places and bits, and what these
refer to, named types by their kind and name. Prints a line for each file, and with it each type
that one of the two alone has. What differs on purpose is counted apart, by its cause. With
--funcs a second line tells how many names of functions both have with one prototype, and which
have another one, or are in one alone."""
import collections
import math
import os
import re
import subprocess
import sys
import tempfile

sys.path.append(os.path.join(os.path.dirname(os.path.abspath(__file__)), "..", "checks", "lib"))
from described import Described

PEER = [
    os.path.abspath(os.environ["PEER"]) if "PEER" in os.environ else "pahole",
    "--skip_encoding_btf_vars",
    "--btf_gen_floats",
    "--btf_encode_detached=o",
]
DECLARABLE = ("STRUCT", "UNION")
INDEX = "the type of indices"
ATOMIC = "`_Atomic`"
DECLARED = "declarations beside several definitions"
ODD = "integers of sizes that BTF has none of"
DIMENSIONS = "arrays of several dimensions"
# the type of indices there, also where a file has no `int`
INDEX_THERE = "INT int 4 0x1000020"
# integers of 3 or 6 bytes, which clang names so in expressions of places: a structure of that size
# here, and one integer for all of them there
ODD_HERE, ODD_THERE = re.compile(r"STRUCT DW_ATE_\w+ \d+ 0 \{\}"), "INT __SANITIZED_FAKE_INT__ "
# what differs on purpose, in one version of that tool or another, and what shows a fault
MEANT, BITS = (INDEX, ATOMIC, DECLARED, ODD, DIMENSIONS), "places of bit fields"
# how many types that differ are shown, and how many names of functions
SHOWN, FEW = 20, 8


def defined_often(table):
    """The kind and the name of each structure and union that has several definitions in a table."""
    counts = collections.Counter(
        (one.kind, one.name) for one in table.types if one and one.kind in DECLARABLE
    )
    return {each for each, count in counts.items() if count > 1}


def cause(where, told, often):
    """Why a type may be in one of the tables alone, by its text and by what has several
    definitions."""
    if "__ARRAY_SIZE_TYPE__" in told or (where, told) == ("there", INDEX_THERE):
        return INDEX
    if "_Atomic" in told:
        return ATOMIC
    if ODD_HERE.fullmatch(told) or told.startswith(ODD_THERE):
        return ODD
    if told.startswith("FWD "):
        _, name, _, is_union, _ = told.split(" ")
        return DECLARED if (DECLARABLE[int(is_union)], name) in often else None
    return None


def without_places(told):
    """A type's text, where each bit field has its size alone: the word of a member has that in
    its first byte."""
    return re.sub(r"@0x([0-9a-f]{1,2})[0-9a-f]{6}\b", r"@\1 bits", told)


def flat(told):
    """A type's text, where an array of arrays is one of all their elements."""
    return re.sub(
        r"(?:\[\d+\]){2,}",
        lambda lengths: f"[{math.prod(map(int, re.findall('[0-9]+', lengths[0])))}]",
        told,
    )


def head(told):
    """The kind and the name of a type, by its text."""
    return tuple(told.split(" ", 2)[:2])


def differing(ours, theirs):
    """How many types two tables have in common, and each one that is in one of them alone:
    where, its text, and why, by its own text or by that of another one of its kind and name.
    Functions are left out."""
    here, there = (
        {told for told in each.named() if not told.startswith("FUNC ")} for each in (ours, theirs)
    )
    alone = [("here", told) for told in sorted(here - there)] + [
        ("there", told) for told in sorted(there - here)
    ]
    often = defined_often(ours)
    of_name = {head(told): why for where, told in alone if (why := cause(where, told, often))}
    alike = {
        why: (form, {form(told) for told in here - there} & {form(told) for told in there - here})
        for why, form in ((DIMENSIONS, flat), (BITS, without_places))
    }
    whys = [
        of_name.get(head(told))
        or next((why for why, (form, both) in alike.items() if form(told) in both), None)
        for _, told in alone
    ]
    return len(here & there), [(where, told, why) for (where, told), why in zip(alone, whys)]


def differing_functions(ours, theirs):
    """How many functions of two tables are the same, and the names of the others, by what
    differs. That the tool pahole says of each that it is static counts for nothing, and neither
    do the dimensions of arrays, which its later versions keep apart."""
    here, there = (
        {one: (flat(of), names) for one, (_, of, names) in each.functions().items()}
        for each in (ours, theirs)
    )
    both = set(here) & set(there)
    other = sorted(one for one in both if here[one] != there[one])
    alone = [
        ("are here alone", sorted(set(here) - both)),
        ("are there alone", sorted(set(there) - both)),
    ]
    return len(both) - len(other), [("have another prototype", other), *alone]


def table(words, folder):
    """The table that a program stores under `o`, or nothing and what it complains."""
    done = subprocess.run(words, cwd=folder, capture_output=True, text=True)
    path = f"{folder}/o"
    if done.returncode != 0 or not os.path.exists(path):
        return None, done.stderr.strip() or f"{words[0]} ends with status {done.returncode}"
    with open(path, "rb") as file:
        data = file.read()
    os.remove(path)
    return Described(data), None


def tables(program, path, folder, options=()):
    """The tables of both programs of a file, and what one complains that fails."""
    ours, complaint = table([program, "-j4", "--btf_encode_detached=o", *options, path], folder)
    theirs, other = table([*PEER, path], folder)
    return ours, theirs, complaint or other


def told_causes(whys):
    """How many types differ by each cause."""
    return [f"{count} by {why}" for why, count in sorted(collections.Counter(whys).items())]


def line_of_functions(name, ours, theirs):
    """A line on the functions of two tables."""
    same, parts = differing_functions(ours, theirs)
    told = [
        f"{len(names)} {what}{' (' + ', '.join(names[:FEW]) + ')' if names else ''}"
        for what, names in parts
    ]
    return f"told agree {name}: {same} functions are the same; {'; '.join(told)}"


def compare(program, path, folder, options):
    """Lines on a file, and whether a type differs that isn't meant to."""
    ours, theirs, complaint = tables(program, path, folder, options)
    name = os.path.basename(path)
    if ours is None or theirs is None:
        return [f"failed agree {name}: {complaint}"], True
    same, alone = differing(ours, theirs)
    wrong = [f"  {where} {told[:300]}" for where, told, why in alone if why not in MEANT]
    meant = told_causes(why for _, _, why in alone if why in MEANT)
    counts = "; ".join([f"{same} types are the same, {len(wrong)} are not", *meant])
    lines = [f"{'failed' if wrong else 'passed'} agree {name}: {counts}"]
    if options:
        lines.append(line_of_functions(name, ours, theirs))
    return [*lines, *wrong[:SHOWN]], bool(wrong)


def main():
    options = [word for word in sys.argv[2:] if word == "--funcs"]
    program, *paths = (os.path.abspath(word) for word in sys.argv[1:] if word not in options)
    failed = False
    with tempfile.TemporaryDirectory() as folder:
        for path in paths:
            lines, differs = compare(program, path, folder, options)
            failed |= differs
            print("\n".join(lines), flush=True)
    return failed


if __name__ == "__main__":
    sys.exit(main())
