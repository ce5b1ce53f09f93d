"""made.py KIND FILE: writes an ELF file of 64 bits whose units of DWARF 5 describe C types that
are made up, for measuring. The kinds are the names of KINDS; each says what its file holds, and
`Made` counts it."""
import collections
import struct
import sys

from dwarf import FIRST, INT, INT_ENTRY, NAME, PLACE, ROOT, TYPE, WIDE_SIZE, Tag, abbreviation, unit
from elf import content, file_of
from elf import units as units_in

# what a file describes, and how many types its table has; at last the bytes of its .debug_info
Made = collections.namedtuple("Made", "units types references entries table info", defaults=[0])
# an entry's abbreviation; those of the unit's own and of the base type are 1 and 2
STRUCTURE, MEMBER, POINTER, TYPEDEF = range(3, 7)
ABBREVIATIONS = (
    ROOT
    + INT
    + abbreviation(STRUCTURE, Tag.STRUCTURE_TYPE, 1, NAME, WIDE_SIZE)
    + abbreviation(MEMBER, Tag.MEMBER, 0, NAME, TYPE, PLACE)
    + abbreviation(POINTER, Tag.POINTER_TYPE, 0, TYPE)
    + abbreviation(TYPEDEF, Tag.TYPEDEF, 0, NAME, TYPE)
    + b"\0"
)


def structure(name, size, members=b""):
    return struct.pack(f"<B{len(name) + 1}sI", STRUCTURE, name.encode(), size) + members


def member(name, to, place):
    return struct.pack(f"<B{len(name) + 1}sII", MEMBER, name.encode(), to, place)


# where the entries begin behind the base type, which stands first
BEGIN = FIRST + len(INT_ENTRY)
GROUP, GROUPS, GROUP_TYPES = 110, 480, 3


def group(number, mark):
    """A structure of six members, a pointer to it and a typedef of that; two members are of
    types of later groups, so there are cycles."""
    at = BEGIN + number * GROUP

    def there(later, inside):
        return BEGIN + (number + later) % GROUPS * GROUP + inside

    name = f"{mark:04}_{number:04}"
    to_structure, to_pointer, to_typedef = 0, 89, 94
    types = [
        FIRST,
        there(1, to_typedef),
        at + to_pointer,
        FIRST,
        there(7, to_typedef),
        there(13, to_pointer),
    ]
    members = b"".join(member(f"m{i}", to, 8 * i) for i, to in enumerate(types))
    return (
        structure(f"s{name}", 48, members)
        + struct.pack("<B", 0)
        + struct.pack("<BI", POINTER, at + to_structure)
        + struct.pack("<B11sI", TYPEDEF, f"t{name}".encode(), at + to_pointer)
    )


def units_of_groups(count, mark_of):
    return [
        unit(INT_ENTRY + b"".join(group(number, mark_of(i)) for number in range(GROUPS)))
        for i in range(count)
    ]


def apart(count=250):
    """Units whose types differ: nothing is merged but `int`."""
    types = count * (GROUPS * GROUP_TYPES + 1)
    entries = count * (GROUPS * 9 + 2)
    return units_of_groups(count, lambda i: i), Made(
        count, types, count * GROUPS * 8, entries, types - count + 1
    )


def alike(count=700):
    """Units with the same types: each type has as many copies as there are units."""
    each = GROUPS * GROUP_TYPES + 1
    one = units_of_groups(1, lambda i: i)
    return one * count, Made(
        count, count * each, count * GROUPS * 8, count * (GROUPS * 9 + 2), each
    )


def nested(count):
    """Structures inside each other, each with a member of the type of the next inner one."""
    parts, places, at = [], [], BEGIN
    for i in range(count):
        part = structure(f"s{i}", 4)
        places.append(at)
        parts.append(part)
        at += len(part)
    inner = [FIRST] + places[:0:-1]
    parts += [member("m", to, 0) + b"\0" for to in inner]
    return [unit(INT_ENTRY + b"".join(parts))], Made(1, count + 1, count, 2 * count + 2, count + 1)


def flat(count=100_000, members=9):
    """One unit of structures that stand side by side."""
    body = b"".join(
        structure(
            f"s{i}", 4 * members, b"".join(member(f"m{j}", FIRST, 4 * j) for j in range(members))
        )
        + b"\0"
        for i in range(count)
    )
    return [unit(INT_ENTRY + body)], Made(
        1, count + 1, count * members, count * (1 + members) + 2, count + 1
    )


def wide(count=65_535):
    """One structure with as many members as BTF can say."""
    body = (
        structure("wide", 4 * count, b"".join(member(f"m{j}", FIRST, 4 * j) for j in range(count)))
        + b"\0"
    )
    return [unit(INT_ENTRY + body)], Made(1, 2, count, count + 3, 2)


KINDS = {
    "apart": apart,
    "alike": alike,
    "nested-20000": lambda: nested(20_000),
    "nested-200000": lambda: nested(200_000),
    "flat": flat,
    "wide": wide,
}


def main():
    units, made = KINDS[sys.argv[1]]()
    data = file_of([(b".debug_info", b"".join(units)), (b".debug_abbrev", ABBREVIATIONS)])
    assert len(units_in(data)) == made.units
    with open(sys.argv[2], "wb") as file:
        file.write(data)
    print(*made._replace(info=len(content(data, ".debug_info"))))


if __name__ == "__main__":
    main()
