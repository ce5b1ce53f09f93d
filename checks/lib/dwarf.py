"""What made files of DWARF 5 are written with: the numbers that they name, by the standard's names,
and the bytes of abbreviations and units."""
import enum
import struct


class Tag(enum.IntEnum):
    """DW_TAG_array_type and so on (table 7.3)."""

    ARRAY_TYPE = 0x01
    ENUMERATION_TYPE = 0x04
    FORMAL_PARAMETER = 0x05
    LEXICAL_BLOCK = 0x0B
    MEMBER = 0x0D
    POINTER_TYPE = 0x0F
    COMPILE_UNIT = 0x11
    STRUCTURE_TYPE = 0x13
    SUBROUTINE_TYPE = 0x15
    TYPEDEF = 0x16
    UNION_TYPE = 0x17
    SUBRANGE_TYPE = 0x21
    BASE_TYPE = 0x24
    CONST_TYPE = 0x26
    ENUMERATOR = 0x28
    SUBPROGRAM = 0x2E
    VOLATILE_TYPE = 0x35


class At(enum.IntEnum):
    """DW_AT_name and so on (table 7.5)."""

    NAME = 0x03
    BYTE_SIZE = 0x0B
    LANGUAGE = 0x13
    CONST_VALUE = 0x1C
    COUNT = 0x37
    DATA_MEMBER_LOCATION = 0x38
    DECLARATION = 0x3C
    ENCODING = 0x3E
    TYPE = 0x49


class Form(enum.IntEnum):
    """DW_FORM_data2 and so on (table 7.6)."""

    DATA2 = 0x05
    DATA4 = 0x06
    STRING = 0x08
    DATA1 = 0x0B
    STRP = 0x0E
    REF_ADDR = 0x10
    REF4 = 0x13
    FLAG_PRESENT = 0x19


DW_UT_COMPILE = 1
DW_LANG_C11 = 0x1D
DW_ATE_SIGNED = 5
# the bytes of a unit's header
HEADER = 12
# the first entry behind the unit's own, which has a code of one byte and a language
FIRST = HEADER + 3

# attributes with their forms
LANGUAGE = (At.LANGUAGE, Form.DATA2)
NAME = (At.NAME, Form.STRING)
NAME_ELSEWHERE = (At.NAME, Form.STRP)
SIZE = (At.BYTE_SIZE, Form.DATA1)
WIDE_SIZE = (At.BYTE_SIZE, Form.DATA4)
TYPE = (At.TYPE, Form.REF4)
PLACE = (At.DATA_MEMBER_LOCATION, Form.DATA4)
DECLARATION = (At.DECLARATION, Form.FLAG_PRESENT)


def leb(value):
    """A number as ULEB128."""
    found = b""
    while value > 127:
        found += bytes([value & 127 | 128])
        value >>= 7
    return found + bytes([value])


def abbreviation(code, tag, children, *pairs):
    """An abbreviation; `children` is 1 where its entries have children, else 0."""
    attributes = b"".join(leb(name) + leb(form) for name, form in pairs)
    return leb(code) + leb(tag) + bytes([children]) + attributes + b"\0\0"


# the abbreviations of the unit's own entry and of the base type, with which most tables begin
ROOT = abbreviation(1, Tag.COMPILE_UNIT, 1, LANGUAGE)
INT = abbreviation(2, Tag.BASE_TYPE, 0, NAME, SIZE, (At.ENCODING, Form.DATA1))
INT_ENTRY = b"\2int\0" + bytes([4, DW_ATE_SIGNED])


def unit(entries, table=0):
    """A unit of these entries, behind its own, whose table of abbreviations stands at an offset."""
    whole = struct.pack("<BH", 1, DW_LANG_C11) + entries + b"\0"
    length = HEADER - 4 + len(whole)
    return struct.pack("<IHBBI", length, 5, DW_UT_COMPILE, 8, table) + whole
