"""What a C compiler says of the types of a program: sizes, and the places of members, bit fields
included. The compiler writes them into sections of an object file, which is read and never run;
so a compiler for another machine will do."""
import struct
import subprocess

from btf import Member
from elf import order_of, sections

# the structures and unions of demo/ with all their members; a bit field has `:`, a flexible array
# `[]`
STRUCTURES = {
    "struct list_head": "next prev",
    "point": "x y weight exact",
    "union word": "whole halves low high rest",
    "struct packet": "kind: last: sequence at raw reply payload[]",
    "struct registry": "tag count entries store state bound compare report mapped users digest "
    "grid ready: level: delta:",
    "struct store": "owner packets used",
    "struct cursor": "registry position",
}


def build(compiler, flags, out, sources):
    """Whether the compiler builds it."""
    words = [compiler, "-g", "-gdwarf-5", "-w", *flags, "-o", out, *sources]
    return subprocess.run(words, capture_output=True).returncode == 0


def question(text, asked):
    """A C file that has this text, and whose sections .says.N hold numbers of 64 bits, and
    .bits.N.M structures with one bit field of ones."""
    lines = [text]
    for n, (name, members) in enumerate(asked.items()):
        numbers = [f"sizeof({name})"]
        for m, member in enumerate(members.split()):
            plain = member.rstrip(":[]")
            if member.endswith(":"):
                there = f'__attribute__((section(".bits.{n}.{m}")))'
                lines.append(f"{name} bits_{n}_{m} {there} = {{ .{plain} = -1 }};")
            else:
                size = "0" if member.endswith("]") else f"sizeof((({name} *)0)->{plain})"
                numbers += [f"__builtin_offsetof({name}, {plain})", size]
        there = f'__attribute__((section(".says.{n}")))'
        lines.append(f"unsigned long long says_{n}[] {there} = {{ {', '.join(numbers)} }};")
    return "\n".join(lines) + "\n"


def ones(order, data):
    """The place of the bits that are set; they are counted as the machine lays bit fields out."""
    little = order == "<"
    found = [
        8 * i + bit
        for i, byte in enumerate(data)
        for bit in range(8)
        if byte >> (bit if little else 7 - bit) & 1
    ]
    assert found == list(range(found[0], found[0] + len(found)))
    return Member(found[0], len(found))


def says_of(compiler, text, asked, flags):
    """What the compiler says of the types of a text that are asked for, as STRUCTURES does: name ->
    (size, {member: Member}, {member: bytes}); nothing where it can't compile the question."""
    with open("says.c", "w") as file:
        file.write(question(text, asked))
    if not build(compiler, [*flags, "-c"], "says.o", ["says.c"]):
        return None
    with open("says.o", "rb") as file:
        answer = file.read()
    parts = {one.name: answer[one.offset : one.offset + one.size] for one in sections(answer)}
    order, told = order_of(answer), {}
    for n, (name, members) in enumerate(asked.items()):
        numbers = parts[f".says.{n}"]
        size, *rest = struct.unpack(f"{order}{len(numbers) // 8}Q", numbers)
        places, sizes, pairs = {}, {}, iter(rest)
        for m, member in enumerate(members.split()):
            plain = member.rstrip(":[]")
            if member.endswith(":"):
                places[plain] = ones(order, parts[f".bits.{n}.{m}"])
            else:
                places[plain], sizes[plain] = Member(8 * next(pairs), 0), next(pairs)
        told[name.split(" ")[-1]] = (size, places, sizes)
    return told


def says(compiler, demo, flags):
    """What the compiler says of the program of demo/."""
    text = f'#include "{demo}/registry.c"\n#include "{demo}/main.c"'
    return says_of(compiler, text, STRUCTURES, flags)
