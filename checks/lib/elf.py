"""What an ELF file of either class and byte order holds: its sections, and the units of DWARF 4
and 5 in one; and files of sections that are made up."""
import collections
import struct

Section = collections.namedtuple("Section", "name header flags offset size")
# made files are little-endian and of 64 bits, executables for x86-64: the first 16 bytes of such a
# file, what its header holds behind these, and what the header of a section holds
IDENT = b"\x7fELF\x02\x01\x01" + bytes(9)
HEADER = "<HHIQQQIHHHHHH"
ROW = "<IIQQQQIIQQ"
ET_REL, ET_EXEC, EM_X86_64 = 1, 2, 62
SHT_NULL, SHT_PROGBITS, SHT_SYMTAB, SHT_STRTAB, SHT_RELA = range(5)
SHN_XINDEX = 0xFFFF
# the bytes of an entry of a table of symbols
SYMBOL = 24


def order_of(data):
    return "<" if data[5] == 1 else ">"


def sections(data):
    """The sections behind the first, each with the offset of its header in the file."""
    order, wide = order_of(data), data[4] == 2
    table = struct.unpack_from(order + ("Q" if wide else "I"), data, 40 if wide else 32)[0]
    each, count, names = struct.unpack_from(order + "HHH", data, 58 if wide else 46)
    rows = []
    for at in range(table, table + each * count, each):
        name, _, flags, _, offset, size = struct.unpack_from(
            order + ("IIQQQQ" if wide else "IIIIII"), data, at
        )
        rows.append((name, at, flags, offset, size))
    texts = rows[names][3]
    return [Section(text_at(data, texts + name).decode(), *rest) for name, *rest in rows[1:]]


def text_at(data, at):
    return data[at : data.index(b"\0", at)]


def content(data, name):
    """The bytes of the first section of a name."""
    for section in sections(data):
        if section.name == name:
            return data[section.offset : section.offset + section.size]
    return b""


def units(data):
    """The offset and the unit type of each unit of version 4 or 5 in .debug_info; in version 4
    it is that of a compilation unit."""
    order, info, found, at = order_of(data), content(data, ".debug_info"), [], 0
    while at < len(info):
        length, head = struct.unpack_from(order + "I", info, at)[0], 4
        if length == 0xFFFFFFFF:
            length, head = struct.unpack_from(order + "Q", info, at + 4)[0], 12
        version = struct.unpack_from(order + "H", info, at + head)[0]
        found.append((at, info[at + head + 2] if version == 5 else 1))
        at += head + length
    return found


def header_of(kind, table, rows, names):
    """The header of a made file: the offset and number of its section headers, and the number of
    the section of their names."""
    rest = (0, 64, 0, 0, 64, rows, names)
    return IDENT + struct.pack(HEADER, kind, EM_X86_64, 1, 0, 0, table, *rest)


def row(name, kind, offset, size, link=0, info=0, each=0):
    """The header of a section of a made file."""
    align = int(kind != SHT_NULL)
    return struct.pack(ROW, name, kind, 0, 0, offset, size, link, info, align, each)


def file_of(contents):
    """A made file with these sections: pairs of name and bytes."""
    names = b"\0" + b"".join(name + b"\0" for name, _ in contents) + b".shstrtab\0"
    body, rows, at = [], [bytes(64)], 64
    for name, data in [*contents, (b".shstrtab", names)]:
        kind = SHT_STRTAB if name == b".shstrtab" else SHT_PROGBITS
        rows.append(row(names.index(b"\0" + name + b"\0") + 1, kind, at, len(data)))
        body.append(data)
        at += len(data)
    return b"".join([header_of(ET_EXEC, at, len(rows), len(rows) - 1), *body, *rows])
