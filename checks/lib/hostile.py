"""Small files that could make the program's work grow faster than its input, by kinds: each kind
makes one of any size. The files are ELF files of 64 bits with units of DWARF 5, and files of
BTF."""
import itertools
import struct
import typing

from dwarf import DECLARATION, FIRST, INT, INT_ENTRY, NAME, NAME_ELSEWHERE, PLACE, ROOT, SIZE, TYPE
from dwarf import WIDE_SIZE, At, Form, Tag, abbreviation, leb, unit
from elf import ET_EXEC, ET_REL, SHN_XINDEX, SHT_NULL, SHT_PROGBITS, SHT_RELA, SHT_STRTAB
from elf import SHT_SYMTAB, SYMBOL, file_of, header_of, row


def file(table, *units, texts=None):
    """A file of these units, with the bytes of their abbreviations, and of .debug_str."""
    sections = [(b".debug_info", b"".join(units)), (b".debug_abbrev", table + b"\0")]
    return file_of(sections + ([(b".debug_str", texts)] if texts else []))


def declarations(n):
    table = (
        ROOT
        + abbreviation(2, Tag.STRUCTURE_TYPE, 0, NAME, DECLARATION)
        + abbreviation(3, Tag.STRUCTURE_TYPE, 0, NAME, SIZE)
    )
    return file(table, unit(b"\2a\0" * n + b"\3a\0\4" * n))


STRUCTURES = (
    ROOT
    + INT
    + abbreviation(3, Tag.STRUCTURE_TYPE, 1, NAME, WIDE_SIZE)
    + abbreviation(4, Tag.MEMBER, 0, NAME, TYPE, PLACE)
)


def structure(size, members):
    """The entry of a structure `a` whose members, pairs of name and place, are integers."""
    parts = [b"\4" + name + b"\0" + struct.pack("<II", FIRST, place) for name, place in members]
    return struct.pack("<B2sI", 3, b"a", size) + b"".join(parts) + b"\0"


def structures_of(n, middle):
    """Structures of one name with three members, of which the one in the middle differs."""
    bodies = [structure(8, [(b"x", 0), middle(i), (b"z", 4)]) for i in range(n)]
    return file(STRUCTURES, unit(INT_ENTRY + b"".join(bodies)))


def structures_by_place(n):
    return structures_of(n, lambda i: (b"y", i))


def structures_by_name(n):
    return structures_of(n, lambda i: (b"y%d" % i, 0))


def enumerations(n):
    table = (
        ROOT
        + abbreviation(2, Tag.ENUMERATION_TYPE, 1, NAME, SIZE)
        + abbreviation(3, Tag.ENUMERATOR, 0, NAME, (At.CONST_VALUE, Form.DATA4))
    )
    parts = [
        b"\2a\0\4"
        + b"".join(
            b"\3" + name + struct.pack("<I", value)
            for name, value in ((b"x\0", 0), (b"y\0", i), (b"z\0", 1))
        )
        + b"\0"
        for i in range(n)
    ]
    return file(table, unit(b"".join(parts)))


def units_of_one_table(n):
    table = ROOT + b"".join(abbreviation(2 + i, Tag.LEXICAL_BLOCK, 0) for i in range(n))
    return file(table, *[unit(b"")] * n)


def units_of_tables_by_turns(n):
    """Three tables of as many abbreviations, which the units name by turns."""
    table = ROOT + b"".join(abbreviation(2 + i, Tag.LEXICAL_BLOCK, 0) for i in range(n)) + b"\0"
    return file(3 * table, *[unit(b"", i % 3 * len(table)) for i in range(n)])


def units_at_places_of_one_table(n):
    """Each unit names another place of one table of abbreviations, which it has from there to
    its end."""
    rows = [abbreviation(2 + i, Tag.LEXICAL_BLOCK, 0) for i in range(n)]
    places = itertools.accumulate(map(len, rows[:-1]), initial=0)
    return file(b"".join(rows) + ROOT, *[unit(b"", place) for place in places])


def attributes_without_bytes(n):
    return file(
        ROOT
        + abbreviation(
            2, Tag.LEXICAL_BLOCK, 0, *[(0x2000 + i, Form.FLAG_PRESENT) for i in range(n)]
        ),
        unit(b"\2" * n),
    )


def attributes_without_bytes_beside_texts(n):
    """Structures whose names, and declarations, stand behind attributes that have no bytes."""
    none = [(0x2000 + i, Form.FLAG_PRESENT) for i in range(n)]
    table = ROOT + abbreviation(
        2, Tag.STRUCTURE_TYPE, 0, (0x2001, Form.STRING), *none, NAME, DECLARATION
    )
    return file(table, unit(b"\2\0s\0" * n))


def pointers(n):
    """A chain: each pointer is to the next one, and the last one to void."""
    table = ROOT + abbreviation(2, Tag.POINTER_TYPE, 0, TYPE) + abbreviation(3, Tag.POINTER_TYPE, 0)
    return file(
        table, unit(b"".join(struct.pack("<BI", 2, FIRST + 5 * (i + 1)) for i in range(n)) + b"\3")
    )


def blocks(n):
    return file(ROOT + abbreviation(2, Tag.LEXICAL_BLOCK, 1), unit(b"\2" * n + b"\0" * n))


def types_in_each_other(n):
    table = (
        ROOT
        + abbreviation(2, Tag.STRUCTURE_TYPE, 1, SIZE)
        + abbreviation(3, Tag.SUBROUTINE_TYPE, 1)
    )
    return file(table, unit(b"\2\4\3" * n + b"\0" * 2 * n))


SUBROUTINE_TYPES = ROOT + abbreviation(2, Tag.SUBROUTINE_TYPE, 1)


def subroutine_types_in_each_other(n):
    return file(SUBROUTINE_TYPES, unit(b"\2" * n + b"\0" * n))


def open_subroutine_types(n):
    """The list of children of each of them has no end: the walk refuses the unit at its end."""
    return file(SUBROUTINE_TYPES, unit(b"\2" * n))


def structures_in_each_other(n):
    table = ROOT + abbreviation(2, Tag.STRUCTURE_TYPE, 1, SIZE)
    return file(table, unit(b"\2\4" * n + b"\0" * n))


def arrays_in_each_other(n):
    table = ROOT + abbreviation(2, Tag.ARRAY_TYPE, 1, TYPE)
    return file(table, unit(struct.pack("<BI", 2, FIRST) * n + b"\0" * n))


def pointers_of_one_byte(n):
    return file(ROOT + abbreviation(2, Tag.POINTER_TYPE, 0), unit(b"\2" * n))


FUNCTIONS = (
    ROOT
    + INT
    + abbreviation(3, Tag.SUBPROGRAM, 1, NAME)
    + abbreviation(4, Tag.FORMAL_PARAMETER, 0, NAME, TYPE)
)
ONE_INT = struct.pack("<I", FIRST)


def functions_in_each_other(n):
    return file(FUNCTIONS, unit(b"\3f\0" * n + b"\0" * n))


def functions_of_one_name(n):
    """Functions whose prototypes differ in the name of a parameter."""
    return file(
        FUNCTIONS,
        unit(INT_ENTRY + b"".join(b"\3f\0\4%d\0" % i + ONE_INT + b"\0" for i in range(n))),
    )


def functions_with_parameters(n):
    """Functions of different names with the same eight parameters."""
    parameters = b"".join(b"\4%c\0" % (97 + i) + ONE_INT for i in range(8))
    return file(
        FUNCTIONS, unit(INT_ENTRY + b"".join(b"\3f%d\0" % i + parameters + b"\0" for i in range(n)))
    )


def parameters(n):
    return file(FUNCTIONS, unit(INT_ENTRY + b"\3f\0" + (b"\4a\0" + ONE_INT) * n + b"\0"))


def entries_that_are_no_members(n):
    table = (
        ROOT + abbreviation(2, Tag.STRUCTURE_TYPE, 1, SIZE) + abbreviation(3, Tag.LEXICAL_BLOCK, 0)
    )
    return file(table, unit(b"\2\4" + b"\3" * n + b"\0"))


def lengths(n):
    table = (
        ROOT
        + INT
        + abbreviation(3, Tag.ARRAY_TYPE, 1, TYPE)
        + abbreviation(4, Tag.SUBRANGE_TYPE, 0, (At.COUNT, Form.DATA1))
    )
    return file(table, unit(INT_ENTRY + struct.pack("<BI", 3, FIRST) + b"\4\1" * n + b"\0"))


def sections(n):
    """So many sections without bytes, numbered in the first section's header, with one long
    name."""
    names = b"\0" + b"a" * n + b"\0"
    first, last = row(0, SHT_NULL, 0, n + 2, link=n + 1), row(0, SHT_STRTAB, 64, len(names))
    header = header_of(ET_EXEC, 64 + len(names), 0, SHN_XINDEX)
    return header + names + first + row(1, SHT_PROGBITS, 64, 0) * n + last


# an entry of a section of relocations: R_X86_64_32 of symbol 0, for the unit's place in the table
# of abbreviations, which is 0
AGAIN = struct.pack("<QQq", 8, 10, 0)


def relocations(count, entries, targets):
    """An object with so many sections of the same relocations, for the targets by turns: 1 is
    .debug_info, 2 .debug_abbrev."""
    info, table, names = unit(b""), ROOT + b"\0", b"\0.debug_info\0.debug_abbrev\0"
    symbols, body, end = bytes(SYMBOL), [entries], 64 + len(entries)
    # the first header says how many there are, and where their names stand
    rows = [row(0, SHT_NULL, 0, 5 + count, link=4)]
    for name, kind, data, each in (
        (1, SHT_PROGBITS, info, 0),
        (13, SHT_PROGBITS, table, 0),
        (0, SHT_SYMTAB, symbols, SYMBOL),
        (0, SHT_STRTAB, names, 0),
    ):
        rows.append(row(name, kind, end, len(data), each=each))
        body.append(data)
        end += len(data)
    for i in range(count):
        to = targets[i % len(targets)]
        rows.append(row(0, SHT_RELA, 64, len(entries), link=3, info=to, each=len(AGAIN)))
    return b"".join([header_of(ET_REL, end, 0, SHN_XINDEX), *body, *rows])


def sections_of_relocations(n):
    return relocations(n, b"", (1, 2))


def relocations_of_the_same_bytes(n):
    return relocations(n, AGAIN * n, (1,))


def codes_far_apart(n):
    codes = [2 + i * 1_000_003 for i in range(n)]
    table = ROOT + b"".join(abbreviation(code, Tag.LEXICAL_BLOCK, 0) for code in codes)
    return file(table, unit(b"".join(leb(code) for code in codes)))


def structures_named_at(places, texts):
    """Structures that differ in their names alone, which stand at these places of .debug_str."""
    table = ROOT + abbreviation(2, Tag.STRUCTURE_TYPE, 0, NAME_ELSEWHERE, SIZE)
    body = b"".join(struct.pack("<BIB", 2, place, 4) for place in places)
    return file(table, unit(body), texts=texts)


def ends_of_one_text(n):
    return structures_named_at(range(n), b"a" * n + b"\0")


# 14 bytes whose digest stays when a byte b is put before it, for the digest that names of more than
# 4,096 bytes have: the multiplier of FNV-1a, modulo 2^64, from the last byte to the first
STAYS = bytes.fromhex("7188897f8987858b7f817f7a867d")


def ends_of_one_digest(n):
    """Structures whose names are ends of one text, and have one digest, those of more than 4,096
    bytes."""
    return structures_named_at(range(n), b"b" * n + STAYS + b"\0")


def functions_named_by_ends_of_one_text(n):
    table = ROOT + abbreviation(2, Tag.SUBPROGRAM, 0, NAME_ELSEWHERE)
    return file(
        table, unit(b"".join(struct.pack("<BI", 2, i) for i in range(n))), texts=b"a" * n + b"\0"
    )


# the first state of the hasher that the library's maps have by default, and what it multiplies by
STATE, MULTIPLIER = 0x243F6A8885A308D3, 0x9E3779B97F4A7C15
# 8 bytes at a name's end with which this hasher forgets all before
FORGETS = struct.pack("<Q", MULTIPLIER)


def colliding(i):
    """A name that has one hash with all others of these by the library's default hasher."""
    return b"%08d" % i + FORGETS


def structures_of_one_hash(n):
    table = ROOT + abbreviation(2, Tag.STRUCTURE_TYPE, 0, NAME, SIZE)
    return file(table, unit(b"".join(b"\2" + colliding(i) + b"\0\4" for i in range(n))))


def functions_of_one_hash(n):
    table = ROOT + abbreviation(2, Tag.SUBPROGRAM, 0, NAME)
    return file(table, unit(b"".join(b"\2" + colliding(i) + b"\0" for i in range(n))))


# what the mixing of signatures multiplies by, and so many base types, each with its place as its
# number; the prototypes behind them have the next one
FACTOR, BASES, WORD = 5_871_781_006_564_002_453, 256, (1 << 64) - 1


def folded(one, other):
    """A step of the default hasher."""
    product = one * other
    return product & WORD ^ product >> 64


def chosen(n, state):
    """The parameters, base types, of n prototypes whose mixed numbers, hashed from this state on,
    all begin in a sixteenth of the groups of a table of so many."""
    groups = 1
    while 9 * groups <= n:
        groups *= 2
    found, few = [], max(groups // 16, 1)
    # the function's own number, and that of its result, which is void
    start = BASES * FACTOR + 1
    for first, second in itertools.product(range(BASES), repeat=2):
        mixed = ((start * FACTOR + first) * FACTOR + second) * FACTOR
        for third in range(BASES):
            told = folded(state ^ mixed + third & WORD, MULTIPLIER ^ 16)
            if (told ^ told >> 32) % groups < few:
                found.append((first, second, third))
        if len(found) >= n:
            break
    return found[:n]


def prototypes_from(n, state):
    table = (
        ROOT
        + INT
        + abbreviation(3, Tag.SUBROUTINE_TYPE, 1)
        + abbreviation(4, Tag.FORMAL_PARAMETER, 0, TYPE)
    )
    bases = [b"\2%03d\0" % i + INT_ENTRY[-2:] for i in range(BASES)]
    shown = [struct.pack("<BI", 4, FIRST + i * len(bases[0])) for i in range(BASES)]
    body = [b"\3%b%b%b\0" % tuple(shown[i] for i in each) for each in chosen(n, state)]
    return file(table, unit(b"".join(bases + body)))


def prototypes_of_chosen_hashes(n):
    """Prototypes whose mixed numbers collide in a set of these."""
    return prototypes_from(n, STATE)


def prototypes_of_chosen_pairs(n):
    """Prototypes whose mixed numbers collide in a map of these beside the numbers of labels."""
    return prototypes_from(n, folded(STATE ^ (BASES | BASES << 32), MULTIPLIER ^ 8))


def structures_of_one_long_name(n):
    """Structures that differ in their size, whose names are one text with 40 bytes for each of
    them."""
    table = ROOT + abbreviation(2, Tag.STRUCTURE_TYPE, 0, NAME_ELSEWHERE, WIDE_SIZE)
    body = b"".join(b"\2" + struct.pack("<II", 0, 1 + i) for i in range(n))
    return file(table, unit(body), texts=b"n" * (40 * n) + b"\0")


def long_names(n):
    """Structures whose names, of 5,000 bytes each, differ in the middle alone."""
    texts = b"".join(b"a" * 2500 + b"%08d" % i + b"a" * 2491 + b"\0" for i in range(n))
    return structures_named_at(range(0, 5000 * n, 5000), texts)


def members(n):
    body = structure(4 * n, [(b"m%d" % i, 4 * i) for i in range(n)])
    return file(STRUCTURES, unit(INT_ENTRY + body))


def btf(words, texts):
    data = struct.pack(f"<{len(words)}I", *words)
    return (
        struct.pack("<HBBIIIII", 0xEB9F, 1, 0, 24, 0, len(data), len(data), len(texts))
        + data
        + texts
    )


# a type's second word says its kind
BTF_KIND_INT = 1 << 24
BTF_KIND_PTR = 2 << 24
BTF_KIND_ARRAY = 3 << 24
BTF_KIND_STRUCT = 4 << 24
BTF_KIND_TYPEDEF = 8 << 24
BTF_KIND_FUNC_PROTO = 13 << 24
BTF_INT = [0, BTF_KIND_INT, 4, 32]


def chain_of_typedefs(n):
    """A chain of typedefs of one name: the first one is of the integer, and the last one has the
    id n + 1."""
    return [word for i in range(n) for word in (1, BTF_KIND_TYPEDEF, i + 1)]


def typedefs_of_btf(n):
    """A chain of typedefs, and as many structures with a member of its last type."""
    texts = b"\0t\0s\0m\0"
    shown = [3, BTF_KIND_STRUCT | 1, 4, 5, n + 1, 0] * n
    return btf(BTF_INT + chain_of_typedefs(n) + shown, texts)


def pointers_of_btf(n):
    """A chain: each pointer is to the one before it, and the first one to void."""
    return btf([word for i in range(n) for word in (0, BTF_KIND_PTR, i)], b"\0")


def arrays_of_btf(n):
    """Arrays of one item in each other, and a structure with a member of the outermost."""
    arrays = [word for i in range(n) for word in (0, BTF_KIND_ARRAY, 0, i + 1, 1, 1)]
    return btf(BTF_INT + arrays + [3, BTF_KIND_STRUCT | 1, 4, 5, n + 1, 0], b"\0t\0s\0m\0")


def prototypes_of_btf(n):
    """Prototypes of 16 parameters, each the integer or void: no two have the same of these, so each
    has a key of its own, and many of these keys differ in their last words alone."""
    parameters = 16
    words = []
    for i in range(n):
        shown = [i >> k & 1 for k in range(parameters - 1)] + [1]
        words += [0, BTF_KIND_FUNC_PROTO | parameters, 0]
        words += [word for each in shown for word in (0, each)]
    return btf(BTF_INT + words, b"\0")


def ends_of_one_text_of_btf(n):
    """Structures of a file of BTF whose names are ends of one text."""
    words = [word for i in range(n) for word in (1 + i, BTF_KIND_STRUCT, 4)]
    return btf(BTF_INT + words, b"\0" + b"a" * n + b"\0")


def names_of_one_hash_of_btf(n):
    """Structures of a file of BTF whose names have one hash by the library's default hasher."""
    words = [word for i in range(n) for word in (1 + 17 * i, BTF_KIND_STRUCT, 4)]
    return btf(BTF_INT + words, b"\0" + b"".join(colliding(i) + b"\0" for i in range(n)))


# an ELF file of one type, beside the file that grows
SMALL = "small"
SMALL_FILE = file(ROOT + INT, unit(INT_ENTRY))
DIGITS = "0123456789abcdefghijklmnopqrstuvwxyz"


def short(i):
    """A name of three letters and digits, so that many are one word of a command."""
    return DIGITS[10 + i // 36 // 36] + DIGITS[i // 36 % 36] + DIGITS[i % 36]


def structures_of_names(n, member):
    """Structures of n different short names, with a member of the type of this id, and the
    strings of these names behind `m`."""
    words = [word for i in range(n) for word in (3 + 4 * i, BTF_KIND_STRUCT | 1, 4, 1, member, 0)]
    return words, b"\0m\0" + b"".join(short(i).encode() + b"\0" for i in range(n))


def structures_of_btf(n):
    words, texts = structures_of_names(n, 1)
    return btf(BTF_INT + words, texts)


def typedefs_below_names_of_btf(n):
    """Structures of n names with a member whose type is the last one of a chain of five times as
    many typedefs."""
    words, texts = structures_of_names(n, 5 * n + 1)
    return btf(BTF_INT + chain_of_typedefs(5 * n) + words, texts)


def typedefs_of_one_structure(n):
    """Typedefs of a structure without a name that has as many members: each has its layout."""
    table = (
        ROOT
        + INT
        + abbreviation(3, Tag.STRUCTURE_TYPE, 1, WIDE_SIZE)
        + abbreviation(4, Tag.MEMBER, 0, NAME, TYPE, PLACE)
        + abbreviation(5, Tag.TYPEDEF, 0, NAME, TYPE)
    )
    parts = [b"\4m%d\0" % i + struct.pack("<II", FIRST, 4 * i) for i in range(n)]
    shown = struct.pack("<I", FIRST + len(INT_ENTRY))
    names = b"".join(b"\5t%d\0" % i + shown for i in range(n))
    body = INT_ENTRY + struct.pack("<BI", 3, 4 * n) + b"".join(parts) + b"\0" + names
    return file(table, unit(body))


def encoding(n):
    return ["--btf_encode_detached=o", "a"]


def encoding_functions(n):
    return ["--btf_encode_detached=o", "--funcs", "a"]


def encoding_over_it(n):
    return ["--btf_encode_detached=o", "--btf_base=a", SMALL]


def showing(n):
    return ["-F", "btf", "-s", "a"]


def showing_layouts(n):
    return ["a"]


def showing_one(n):
    return ["-F", "btf", "-s", "-C", "a", "a"]


def names_of(n):
    return ",".join(map(short, range(n)))


def showing_names(n):
    return ["-F", "btf", "-s", "-C", names_of(n), "a"]


def showing_layouts_of_names(n):
    return ["-F", "btf", "-C", names_of(n), "a"]


class Kind(typing.NamedTuple):
    """A kind of file."""

    name: str
    # the file for a number, which its bytes grow with
    file: typing.Callable[[int], bytes]
    # the least number that the gate makes one for
    least: int
    # the program's words for a number
    words: typing.Callable[[int], list] = encoding
    # whether larger ones can be had, and take long enough
    has_larger: bool = True
    # whether its work is known to grow with the square; docs/BENCHMARKS.md says why
    is_square: bool = False


KINDS = [
    Kind("declarations beside equal definitions", declarations, 10_000),
    Kind("structures that differ in a member's place", structures_by_place, 5_000),
    Kind("structures that differ in a member's name", structures_by_name, 5_000),
    Kind("enumerations that differ in a value", enumerations, 10_000),
    Kind("units of one table of abbreviations", units_of_one_table, 2_500),
    Kind("units of tables by turns", units_of_tables_by_turns, 2_500),
    Kind(
        "units at different offsets of one table",
        units_at_places_of_one_table,
        1_000,
        has_larger=False,
        is_square=True,
    ),
    Kind("attributes without bytes", attributes_without_bytes, 8_000),
    Kind("attributes without bytes beside texts", attributes_without_bytes_beside_texts, 4_000),
    Kind("a chain of pointers", pointers, 4_000),
    Kind("a chain of pointers in a base", pointers_of_btf, 12_500, encoding_over_it),
    Kind(
        "prototypes of different keys in a base",
        prototypes_of_btf,
        5_000,
        encoding_over_it,
        has_larger=False,
    ),
    Kind("blocks in each other", blocks, 25_000),
    Kind("types in each other", types_in_each_other, 12_500),
    Kind("entries that are no members", entries_that_are_no_members, 12_500),
    Kind("lengths of one array", lengths, 125_000),
    Kind("sections of one long name", sections, 50_000),
    Kind("sections of relocations", sections_of_relocations, 50_000),
    Kind(
        "relocations of the same bytes",
        relocations_of_the_same_bytes,
        2_500,
        has_larger=False,
        is_square=True,
    ),
    Kind("codes of abbreviations far apart", codes_far_apart, 12_500),
    Kind("names that are ends of one text", ends_of_one_text, 50_000),
    Kind("names that are ends of one text of one digest", ends_of_one_digest, 25_000),
    Kind(
        "functions whose names are ends of one text",
        functions_named_by_ends_of_one_text,
        25_000,
        encoding_functions,
    ),
    Kind("names of one hash", structures_of_one_hash, 12_500),
    Kind("functions whose names have one hash", functions_of_one_hash, 12_500, encoding_functions),
    Kind("long names that differ in the middle", long_names, 500, has_larger=False),
    Kind(
        "structures of one long name",
        structures_of_one_long_name,
        2_500,
        has_larger=False,
        is_square=True,
    ),
    Kind(
        "prototypes of chosen hashes",
        prototypes_of_chosen_hashes,
        16_384,
        has_larger=False,
    ),
    Kind(
        "prototypes of chosen pairs of numbers",
        prototypes_of_chosen_pairs,
        16_384,
        has_larger=False,
    ),
    Kind(
        "layouts of typedefs of one structure",
        typedefs_of_one_structure,
        250,
        showing_layouts,
        has_larger=False,
        is_square=True,
    ),
    Kind("members of one structure", members, 16_383, has_larger=False),
    Kind("functions in each other", functions_in_each_other, 12_500, encoding_functions),
    Kind("functions of one name that differ", functions_of_one_name, 12_500, encoding_functions),
    Kind("functions of many names", functions_with_parameters, 12_500, encoding_functions),
    Kind("parameters of one function", parameters, 16_383, encoding_functions, has_larger=False),
    Kind("typedefs of a BTF file", typedefs_of_btf, 12_500, showing),
    Kind("arrays of a BTF file", arrays_of_btf, 12_500, showing),
    Kind(
        "names of a BTF file that are ends of one text",
        ends_of_one_text_of_btf,
        25_000,
        showing_one,
    ),
    Kind("names of a BTF file of one hash", names_of_one_hash_of_btf, 12_500, showing_one),
    Kind("names of a base of one hash", names_of_one_hash_of_btf, 12_500, encoding_over_it),
    Kind("names of `-C`", structures_of_btf, 5_000, showing_names, has_larger=False),
    Kind(
        "typedefs of a BTF file below names of `-C`",
        typedefs_below_names_of_btf,
        5_000,
        showing_layouts_of_names,
        has_larger=False,
    ),
]
