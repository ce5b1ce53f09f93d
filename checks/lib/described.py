"""The types of a BTF table without a base, each as a text that does not depend on ids: for
comparing tables of different writers."""
import collections
import struct

from btf import EACH, FIXED, KINDS

# a FUNC's count is its linkage: 0 static, 1 global, 2 extern
Type = collections.namedtuple("Type", "kind name flag count last words parts")
PREFIX = {
    "PTR": "*",
    "CONST": "const",
    "VOLATILE": "volatile",
    "RESTRICT": "restrict",
    "TYPE_TAG": "tag",
}
# parts whose second word is a type
REFERRING = ("STRUCT", "UNION", "FUNC_PROTO")


def types(data):
    """All types of a table, by id; of each part its name and its other words."""
    order = "<" if data[:2] == b"\x9f\xeb" else ">"
    type_len = struct.unpack_from(order + "4xII", data, 8)[1]
    text_at = struct.unpack_from(order + "I", data, 16)[0]
    texts, words = data[24 + text_at :], struct.unpack_from(f"{order}{type_len // 4}I", data, 24)

    def text(at):
        return texts[at : texts.index(b"\0", at)].decode(errors="replace")

    found, at = [None], 0
    while at < len(words):
        name, info, last = words[at : at + 3]
        kind, count = info >> 24 & 0x1F, info & 0xFFFF
        behind = at + 3 + FIXED.get(kind, 0)
        step = EACH.get(kind, 0)
        parts = (
            [
                (text(words[i]), words[i + 1 : i + step])
                for i in range(behind, behind + step * count, step)
            ]
            if step and kind != 15
            else []
        )
        found.append(
            Type(KINDS[kind], text(name), info >> 31, count, last, words[at + 3 : behind], parts)
        )
        at = behind + step * count
    return found


class Described:
    """The types of a table, each as a text that does not depend on ids."""

    def __init__(self, data):
        self.types, self.known = types(data), {0: "void"}

    def of(self, number, depth=0):
        """A type as others refer to it: a named one by its kind and name, another one by what it
        is made of."""
        if number in self.known:
            return self.known[number]
        one = self.types[number]
        if one.kind in PREFIX:
            name = f" {one.name}" if one.kind == "TYPE_TAG" else ""
            told = f"{PREFIX[one.kind]}{name} {self.of(one.last, depth)}"
        elif one.kind == "ARRAY":
            told = f"{self.of(one.words[0], depth)}[{one.words[2]}]"
        elif one.name:
            told = f"{one.kind if one.kind != 'FWD' else ('STRUCT', 'UNION')[one.flag]} {one.name}"
        elif depth < 20:
            told = self.whole(number, depth + 1)
        else:
            told = "..."
        self.known[number] = told
        return told

    def whole(self, number, depth=0):
        """All that a type is."""
        one = self.types[number]
        if one.kind == "INT":
            return f"INT {one.name} {one.last} {one.words[0]:#x}"
        if one.kind in ("TYPEDEF", "FUNC"):
            return f"{one.kind} {one.name} = {self.of(one.last, depth)}"
        if one.kind in REFERRING:
            rows = [
                f"{name}@{rest[1] if len(rest) > 1 else 0:#x} {self.of(rest[0], depth)}"
                for name, rest in one.parts
            ]
        else:
            rows = [f"{name}={','.join(map(str, rest))}" for name, rest in one.parts]
        size = self.of(one.last, depth) if one.kind == "FUNC_PROTO" else one.last
        return f"{one.kind} {one.name} {size} {one.flag} {{{'; '.join(rows)}}}"

    def named(self):
        """Each type with a name, as all that it is."""
        return {
            self.whole(number)
            for number, one in enumerate(self.types)
            if one and one.name and one.kind not in ("TYPE_TAG", "VAR", "DATASEC")
        }

    def functions(self):
        """Each function by its name: whether other units can call it, its prototype, and its
        parameters' names."""
        return {
            one.name: (
                one.count == 1,
                self.of(one.last),
                [name for name, _ in self.types[one.last].parts],
            )
            for one in self.types
            if one and one.kind == "FUNC" and one.count != 2
        }
