"""A small reader of BTF (the Linux kernel's BTF documentation): structures and unions with their
sizes and members."""
import collections
import struct

# the words behind the first three of a type, by kind: so many, and so many for each of vlen
FIXED = {1: 1, 3: 3, 14: 1, 17: 1}
EACH = {4: 3, 5: 3, 6: 2, 13: 2, 15: 3, 19: 3}
STRUCTURES = (4, 5)
TYPEDEF = 8

Type = collections.namedtuple("Type", "kind name last rows")
# a member's bit offset from the structure's beginning, and its number of bits where it is a bit
# field, else 0
Member = collections.namedtuple("Member", "bit bits")


# the kinds by their numbers
KINDS = (
    "void INT PTR ARRAY STRUCT UNION ENUM FWD TYPEDEF VOLATILE CONST RESTRICT FUNC FUNC_PROTO VAR "
    "DATASEC FLOAT DECL_TAG TYPE_TAG ENUM64"
).split()


def kinds(data):
    """How many types of each kind a table has, its base's not counted, by the kind's name."""
    order = "<" if data[:2] == b"\x9f\xeb" else ">"
    length = struct.unpack_from(order + "I", data, 12)[0]
    found, at = collections.Counter(), 24
    while at < 24 + length:
        info = struct.unpack_from(order + "I", data, at + 4)[0]
        kind = info >> 24 & 0x1F
        at += 12 + 4 * (FIXED.get(kind, 0) + EACH.get(kind, 0) * (info & 0xFFFF))
        found[KINDS[kind]] += 1
    return found


def count(data):
    """How many types a table has, its base's not counted."""
    return sum(kinds(data).values())


def types(data):
    """All types of a table, by id; a structure's rows are the names, types and Members of its
    members."""
    order = "<" if data[:2] == b"\x9f\xeb" else ">"
    _, version, flags, length, type_at, type_len, text_at, text_len = struct.unpack_from(
        order + "HBBIIIII", data
    )
    assert (version, flags, length, type_at, text_at) == (1, 0, 24, 0, type_len)
    assert len(data) == 24 + type_len + text_len
    texts = data[24 + text_at :]
    words = struct.unpack_from(f"{order}{type_len // 4}I", data, 24)

    def text(at):
        return texts[at : texts.index(b"\0", at)].decode()

    found, at = {}, 0
    while at < len(words):
        name, info, last = words[at : at + 3]
        kind, vlen, flag, rows = info >> 24 & 0x1F, info & 0xFFFF, info >> 31, []
        if kind in STRUCTURES:
            for i in range(at + 3, at + 3 + 3 * vlen, 3):
                place = words[i + 2]
                member = Member(place & 0xFFFFFF, place >> 24) if flag else Member(place, 0)
                rows.append((text(words[i]), words[i + 1], member))
        found[len(found) + 1] = Type(kind, text(name), last, rows)
        at += 3 + FIXED.get(kind, 0) + EACH.get(kind, 0) * vlen
    assert at == len(words)
    return found


def structures(data):
    """The structures and unions with a name, and those that a typedef names: name -> (size,
    {member: Member}, inner). Members of a structure without a name inside another one count as the
    other one's, and are `inner`.
    """
    table, named = types(data), {}
    for one in table.values():
        if one.kind in STRUCTURES and one.name:
            named[one.name] = one
        elif one.kind == TYPEDEF and one.last in table:
            target = table[one.last]
            if target.kind in STRUCTURES and not target.name:
                named[one.name] = target

    def members(one, start):
        for name, inner, place in one.rows:
            if name:
                yield name, Member(start + place.bit, place.bits), start == 0
            elif table[inner].kind in STRUCTURES:
                for nested, at, _ in members(table[inner], start + place.bit):
                    yield nested, at, False

    found = {}
    for name, one in named.items():
        rows = list(members(one, 0))
        found[name] = (
            one.last,
            {member: place for member, place, _ in rows},
            {member for member, _, own in rows if not own},
        )
    return found
