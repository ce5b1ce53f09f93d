"""drawn.py PROGRAM COUNT [SEED]: looks for files over which the program's work grows faster than
their bytes, beside the kinds of checks/lib/hostile.py. Draws COUNT families of files of C types:
which kinds of types follow one another, what each refers to, which have one name, how they are
parted into units, and what is done with them. Runs PROGRAM over files of each family, of SIZES
types, which are four times as many at each step, and tells each family whose processor time grows
by more than MOST at each step. The same SEED, by default 1, draws the same families."""
import collections
import os
import random
import struct
import sys
import tempfile
import typing

sys.path.append(os.path.join(os.path.dirname(os.path.abspath(__file__)), "..", "checks", "lib"))
import timed
from dwarf import DECLARATION, FIRST, INT, INT_ENTRY, NAME, PLACE, ROOT, SIZE, WIDE_SIZE
from dwarf import At, Form, Tag, abbreviation, unit
from elf import file_of

# a step to four times as many types takes MOST times as long at most, also beside other programs
SIZES, MOST, LIMIT = (12_000, 48_000, 192_000), 6, 120
# times below this, in seconds, tell nothing
ENOUGH = 0.1
# the number of the type `int`, which each unit has
OF_INT = -1
TYPE = (At.TYPE, Form.REF_ADDR)
# abbreviations behind those of the unit and of the base type
ROWS = [
    ("pointer", Tag.POINTER_TYPE, 0, TYPE),
    ("const", Tag.CONST_TYPE, 0, TYPE),
    ("volatile", Tag.VOLATILE_TYPE, 0, TYPE),
    ("typedef", Tag.TYPEDEF, 0, NAME, TYPE),
    ("structure", Tag.STRUCTURE_TYPE, 1, NAME, WIDE_SIZE),
    ("union", Tag.UNION_TYPE, 1, NAME, WIDE_SIZE),
    ("nameless", Tag.STRUCTURE_TYPE, 1, WIDE_SIZE),
    ("member", Tag.MEMBER, 0, NAME, TYPE, PLACE),
    ("array", Tag.ARRAY_TYPE, 1, TYPE),
    ("length", Tag.SUBRANGE_TYPE, 0, (At.COUNT, Form.DATA4)),
    ("prototype", Tag.SUBROUTINE_TYPE, 1),
    ("function", Tag.SUBPROGRAM, 1, NAME),
    ("parameter", Tag.FORMAL_PARAMETER, 0, NAME, TYPE),
    ("enumeration", Tag.ENUMERATION_TYPE, 1, NAME, SIZE),
    ("enumerator", Tag.ENUMERATOR, 0, NAME, (At.CONST_VALUE, Form.DATA4)),
    ("declared", Tag.STRUCTURE_TYPE, 0, NAME, DECLARATION),
    ("declared union", Tag.UNION_TYPE, 0, NAME, DECLARATION),
    ("declared enumeration", Tag.ENUMERATION_TYPE, 0, NAME, SIZE, DECLARATION),
]
CODES = {row[0]: bytes([3 + place]) for place, row in enumerate(ROWS)}
TABLE = ROOT + INT + b"".join(abbreviation(CODES[name][0], *row) for name, *row in ROWS) + b"\0"
PARTS = ("member", "length", "parameter", "enumerator")
KINDS = [kind for kind in CODES if kind not in PARTS]
WITH_MEMBERS = ("structure", "union", "nameless")
WITH_PARAMETERS = ("prototype", "function")
WITHOUT_TYPES = ("enumeration", "declared", "declared union", "declared enumeration")
# what the next type is that one refers to: the number of the one, which of its references it is,
# how many types there are, and the dice
SHAPES = {
    "the next": lambda i, j, n, dice: i + 1 + j,
    "the one before": lambda i, j, n, dice: i - 1 - j,
    "a ring": lambda i, j, n, dice: (i + 1 + 7 * j) % n,
    "one": lambda i, j, n, dice: j,
    "a tree": lambda i, j, n, dice: 2 * i + 1 + j,
    "two chains": lambda i, j, n, dice: i + 2 + 2 * j,
    "itself": lambda i, j, n, dice: i,
    "a tree backwards": lambda i, j, n, dice: i // 2 - 1 + j,
    "one nearby": lambda i, j, n, dice: i + dice.randrange(-5, 6),
    "the other half": lambda i, j, n, dice: (i + n // 2 + j) % n,
    "any": lambda i, j, n, dice: dice.randrange(n),
}
# which number is in a name or in a value
NUMBERS = {
    "one": lambda i, n: 0,
    "few": lambda i, n: i % 7,
    "pairs": lambda i, n: i // 2,
    "as many as the root": lambda i, n: i % int(n**0.5),
    "each another": lambda i, n: i,
    "the last another": lambda i, n: int(i == n - 1),
}
UNITS = {
    "one": lambda n: 1,
    "three": lambda n: 3,
    "as many as the root": lambda n: int(n**0.5),
    "a quarter as many": lambda n: n // 4,
}
ENCODE, ENCODE_BASE = ["--btf_encode_detached=o"], ["--btf_encode_detached=base", "a"]
JOBS = {
    "encoded": [*ENCODE, "a"],
    "encoded by four": [*ENCODE, "-j4", "a"],
    "with functions": [*ENCODE, "--funcs", "a"],
    "with functions by four": [*ENCODE, "--funcs", "-j4", "a"],
    "over itself": [*ENCODE, "--btf_base=base", "a"],
    "shown": ["a"],
    "lines": ["-s", "a"],
}


class Node(typing.NamedTuple):
    """A type: its kind, its name, the numbers of those that it refers to, and a value."""

    kind: str
    name: bytes
    targets: list
    value: int


class Family(typing.NamedTuple):
    """How files of any size are made, and what is done with them."""

    kinds: list
    shape: str
    degree: int
    names: str
    values: str
    units: str
    # whether each unit is there twice
    is_doubled: bool
    # whether structures are declared before they are defined, in a unit of its own
    is_declared: bool
    job: str
    seed: float


def drawn(dice):
    return Family(
        kinds=dice.choices(KINDS, k=dice.choice([1, 1, 2, 2, 3, 4])),
        shape=dice.choice(list(SHAPES)),
        degree=dice.choice([1, 1, 2, 3]),
        names=dice.choice(list(NUMBERS)),
        values=dice.choice(list(NUMBERS)),
        units=dice.choice(list(UNITS)),
        is_doubled=dice.random() < 0.3,
        is_declared=dice.random() < 0.4,
        job=dice.choice(list(JOBS)),
        seed=dice.random(),
    )


def nodes_of(family, n):
    dice, nodes = random.Random(family.seed), []
    for i in range(n):
        kind = family.kinds[i % len(family.kinds)]
        has_many = kind in WITH_MEMBERS + WITH_PARAMETERS
        degree = 0 if kind in WITHOUT_TYPES else family.degree if has_many else 1
        targets = [SHAPES[family.shape](i, j, n, dice) for j in range(degree)]
        name = b"s%d" % NUMBERS[family.names](i, n)
        nodes.append(Node(kind, name, targets, NUMBERS[family.values](i, n)))
    return nodes


def moved(nodes, by, count):
    """The types with so many others before them; what refers to none of these refers to `int`."""
    return [
        one._replace(targets=[to + by if 0 <= to < count else OF_INT for to in one.targets])
        for one in nodes
    ]


def units_of(family, n):
    """The types of each unit, which are numbered over all units."""
    nodes = nodes_of(family, n)
    known = {place for place, one in enumerate(nodes) if one.kind != "function"}
    nodes = [one._replace(targets=[to for to in one.targets if to in known]) for one in nodes]
    nodes = [one if one.targets else one._replace(targets=[OF_INT]) for one in nodes]
    before = [one for one in nodes if one.kind == "structure"] if family.is_declared else []
    declared = [Node("declared", one.name, [], 0) for one in before]
    each = -(-n // UNITS[family.units](n))
    here = moved(nodes, len(declared), n)
    units = [declared] + [here[at : at + each] for at in range(0, n, each)]
    count = len(declared) + n
    again = [moved(one, count, count) for one in units] if family.is_doubled else []
    return units + again


def bytes_of(node, place):
    """The entry of a type, and its parts; `place` tells where an entry begins."""

    def word(number):
        return struct.pack("<I", number)

    targets, name = [word(place(to)) for to in node.targets], node.name + b"\0"
    head = CODES[node.kind] + (b"" if node.kind in ("nameless", "prototype") else name)
    if node.kind in ("pointer", "const", "volatile"):
        return CODES[node.kind] + targets[0]
    if node.kind == "typedef":
        return head + targets[0]
    if node.kind == "array":
        length = CODES["length"] + word(1 + node.value % 1000)
        return CODES["array"] + targets[0] + length + b"\0"
    if node.kind in WITH_MEMBERS:
        step = 0 if node.kind == "union" else 8
        parts = [
            CODES["member"] + b"m%d\0" % i + to + word(step * i) for i, to in enumerate(targets)
        ]
        return head + word(64 + node.value % 1000) + b"".join(parts) + b"\0"
    if node.kind in WITH_PARAMETERS:
        parts = [CODES["parameter"] + b"p%d\0" % i + to for i, to in enumerate(targets)]
        return head + b"".join(parts) + b"\0"
    if node.kind == "enumeration":
        return head + b"\4" + CODES["enumerator"] + b"e\0" + word(node.value) + b"\0"
    return head + (b"\4" if node.kind == "declared enumeration" else b"")


def written(units):
    """An ELF file of these units, each behind an `int` of its own."""
    places, ints, at = [], [], 0
    for nodes in units:
        ints.append(at + FIRST)
        at += FIRST + len(INT_ENTRY)
        for node in nodes:
            places.append(at)
            at += len(bytes_of(node, lambda to: 0))
        at += 1
    info = []
    for nodes, own in zip(units, ints):
        entries = [
            bytes_of(node, lambda to, own=own: own if to == OF_INT else places[to])
            for node in nodes
        ]
        info.append(unit(INT_ENTRY + b"".join(entries)))
    return file_of([(b".debug_info", b"".join(info)), (b".debug_abbrev", TABLE)])


def measured(program, folder, family, n):
    """The processor time of a run over a family's file of so many types, and its status; none where
    it did not end in time."""
    with open(os.path.join(folder, "a"), "wb") as file:
        file.write(written(units_of(family, n)))
    if family.job == "over itself":
        timed.run([program, *ENCODE_BASE], folder, LIMIT)
    time, done = timed.run([program, *JOBS[family.job]], folder, LIMIT)
    return (time, done.returncode) if done else (float(LIMIT), None)


def times_of(program, folder, family):
    """The last status of a family's runs, and its times where each step takes more than MOST times
    as long, or a run did not end by itself; else no times."""
    times = []
    for size in SIZES:
        time, status = measured(program, folder, family, size)
        if status is None or status < 0:
            return status, [*times, time]
        if times and time < max(ENOUGH, MOST * times[-1]):
            return status, []
        times.append(time)
    return status, times


def main():
    program, count = os.path.abspath(sys.argv[1]), int(sys.argv[2])
    dice = random.Random(int(sys.argv[3]) if len(sys.argv) > 3 else 1)
    ended, grown = collections.Counter(), 0
    with tempfile.TemporaryDirectory() as folder:
        for number in range(count):
            family = drawn(dice)
            status, times = times_of(program, folder, family)
            ended[status] += 1
            if times:
                grown += 1
                told = ", ".join(f"{time:.2f} s" for time in times)
                print(f"{number}: {told}, status {status}: {family}", flush=True)
    told = ", ".join(f"{many} of status {status}" for status, many in ended.items())
    print(f"{count} families ({told}), {grown} of them grow by more than {MOST} at each step")


main()
