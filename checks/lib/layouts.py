"""layouts.py PROGRAM DEMO FOLDER: prints the layouts of programs that the compiler builds in
FOLDER, and compares them with what the compiler says. A type is a dict: `c`, how C names it;
`name`, how it is printed; `members`, in order, each its name (None where it has none) and
whether it is a bit field; `wide`, the names of bit fields that are as wide as their type."""
import os
import random
import re
import shutil
import subprocess
import sys

WAYS = [[], ["-O2"], ["-m32"], ["-fpack-struct=2"]]
MADE = 300

DEMO = [
    ("struct list_head", ["next", "prev"]),
    ("union word", ["whole", "halves", None]),
    ("struct packet", ["kind:", "last:", "sequence", None, "reply", "payload"]),
    (
        "struct registry",
        [
            "tag",
            "count",
            "entries",
            "store",
            "state",
            "bound",
            "compare",
            "report",
            "mapped",
            "users",
            "digest",
            "grid",
            "ready:",
            "level:",
            "delta:",
        ],
    ),
    ("struct store", ["owner", "packets", "used"]),
    ("point", ["x", "y", "weight", "exact"]),
]

WHOLE = [
    "char",
    "signed char",
    "short",
    "unsigned short",
    "int",
    "unsigned",
    "long",
    "unsigned long",
    "long long",
    "float",
    "double",
    "long double",
    "_Bool",
    "void *",
    "int (*{})(int, char *)",
    "const char *const",
    "enum two",
]
FIELDS = {
    "unsigned char": 8,
    "short": 16,
    "unsigned short": 16,
    "int": 32,
    "unsigned": 32,
    "long long": 64,
    "unsigned long long": 64,
    "_Bool": 1,
}
ATTRIBUTES = [
    "",
    "",
    "",
    "__attribute__((packed))",
    "__attribute__((aligned(32)))",
    "__attribute__((packed, aligned(4)))",
]


def named(c, members):
    return {
        "c": c,
        "name": c.split()[-1],
        "members": [(m and m.rstrip(":"), bool(m) and m.endswith(":")) for m in members],
        "wide": set(),
    }


WIDE = re.compile(
    "|".join(rf"\b{base} (\w+) : {bits};" for base, bits in FIELDS.items() if bits > 1)
)


def made_member(dice, place, flat):
    """A member as C writes it, its name, and whether it is a bit field. `flat` are types that
    hold no other one."""
    name, sort = f"m{place}", dice.random()
    if sort < 0.35:
        base = dice.choice(list(FIELDS))
        return f"{base} {name} : {dice.randint(1, FIELDS[base])};", name, True
    if sort < 0.4:
        return f"{dice.choice(['int', 'long long'])} : {dice.choice([0, 0, 3])};", None, True
    if sort < 0.5:
        item = f"{dice.choice(['short', 'int', 'double'])} b{place}[{dice.randint(1, 3)}]"
        return f"union {{ char a{place}; {item}; }};", None, False
    base = dice.choice(flat) if flat and sort < 0.65 else dice.choice(WHOLE)
    bounds = "".join(f"[{dice.randint(1, 4)}]" for _ in range(dice.choice([0, 0, 0, 1, 2])))
    if "{}" in base:
        return base.format(name + bounds) + ";", name, False
    return f"{base} {name}{bounds};", name, False


def made_types(dice):
    """The text of a C file, and its types."""
    lines, types, flat = ["enum two { ONE, TWO };"], [], []
    for number in range(MADE):
        word, members, rows = dice.choice(["struct"] * 3 + ["union"]), [], []
        for place in range(dice.randint(1, 12)):
            text, name, field = made_member(dice, place, flat)
            rows.append("\t" + text)
            # a bit field without a name is no member
            if name or not field:
                members.append((name, field))
        if not members:
            rows.append("\tchar last;")
            members.append(("last", False))
        attribute, tag = dice.choice(ATTRIBUTES), f"made{number}"
        if dice.random() < 0.2:
            lines += [f"typedef {word} {{", *rows, f"}} {attribute} {tag};"]
            c = tag
        else:
            lines += [f"{word} {tag} {{", *rows, f"}} {attribute};"]
            c = f"{word} {tag}"
        lines.append(f"{c} kept{number};")
        wide = {"".join(names) for row in rows for names in WIDE.findall(row)}
        types.append({"c": c, "name": tag, "members": members, "wide": wide})
        if not any("made" in row for row in rows):
            flat.append(c)
    return "\n".join(lines) + "\nint main(void) { return 0; }\n", types


def built(flags, out, sources):
    done = subprocess.run(
        ["cc", "-g", "-gdwarf-5", "-w", *flags, "-o", out, *sources], capture_output=True
    )
    return done.returncode == 0


BITS = """static void bits(const unsigned char *bytes, size_t count)
{
	size_t first = 8 * count, last = 0, set = 0;
	for (size_t i = 0; i < 8 * count; i++)
		if (bytes[i / 8] >> i % 8 & 1) {
			if (first > i)
				first = i;
			last = i;
			set++;
		}
	printf(" %zu %zu", first, set == last - first + 1 ? set : 0);
}
"""


def says(flags, header, types):
    """What the compiler says of each type: its bytes, and the first bit and the bits of each
    member with a name; None where its program can't be built or run."""
    lines = [
        f'#include "{header}"',
        "#include <stddef.h>",
        "#include <stdio.h>",
        "#include <string.h>",
        BITS,
        "int main(int argc, char **argv)",
        "{",
    ]
    for t in types:
        c = t["c"]
        lines.append(f'\tprintf("{t["name"]} %zu", sizeof({c}));')
        for name, field in t["members"]:
            if name is None:
                continue
            if field:
                lines.append(
                    f"\t{{ {c} all; memset(&all, 0, sizeof all); all.{name} = -argc; "
                    "bits((unsigned char *)&all, sizeof all); }"
                )
            elif name == "payload":
                lines.append(f'\tprintf(" %zu 0", 8 * offsetof({c}, {name}));')
            else:
                lines.append(
                    f'\tprintf(" %zu %zu", 8 * offsetof({c}, {name}), '
                    f"8 * sizeof((({c} *)0)->{name}));"
                )
        lines.append('\tputs("");')
    lines += ["\treturn 0;", "}", ""]
    with open("says.c", "w") as file:
        file.write("\n".join(lines))
    if not built([*flags, "-I."], "says", ["says.c"]):
        return None
    try:
        done = subprocess.run(["./says"], capture_output=True, text=True)
    except OSError:
        return None
    told = {}
    for line in done.stdout.splitlines():
        name, size, *numbers = line.split(" ")
        told[name] = (int(size), list(zip(map(int, numbers[::2]), map(int, numbers[1::2]))))
    return told


PLACE = re.compile(r"/\* +(\d+)(?::(\d+))? +(\d+) \*/$")


def member(line):
    """The text of a member's declaration, its first bit and its bits."""
    byte, bit, count = PLACE.search(line).groups()
    bits = int(count) if bit else 8 * int(count)
    return PLACE.sub("", line), 8 * int(byte) + int(bit or 0), bits


def printed(text):
    """The layouts that are printed: name -> (bytes, members)."""
    found = {}
    for part in re.split(r"\n\n(?=(?:struct|union|typedef) )", text):
        lines = part.rstrip("\n").split("\n")
        name = lines[0].split(" ")[1] if not lines[0].startswith("typedef") else lines[-1][2:-1]
        size = next(
            int(re.search(r"size: (\d+)", line)[1]) for line in lines if "/* size: " in line
        )
        found[name] = (size, [member(line) for line in lines[1:] if PLACE.search(line)])
    return found


def wrong(t, told, had):
    """What differs between the layout of a type that is printed and what the compiler says, or
    nothing."""
    size, places = told
    if had[0] != size:
        return f"{had[0]} bytes, the compiler says {size}"
    if len(had[1]) != len(t["members"]):
        return f"{len(had[1])} members, not {len(t['members'])}"
    rest = iter(places)
    for (name, field), (text, first, bits) in zip(t["members"], had[1]):
        if name is None:
            continue
        if not re.search(rf"\b{name}\b", text):
            return f"no member {name} in {text!r}"
        wanted = next(rest)
        if (first, bits) != wanted:
            says = f"{wanted[1]} from {wanted[0]} on"
            return f"{name} has {bits} bits from {first} on, the compiler says {says}"
        if field != bool(re.search(rf"\b{name}:{bits};", text)):
            return f"{name} in {text!r}"
    return None


def checked(program, flags, header, sources, types):
    if not built(flags, "a", sources):
        return "skipped", "the compiler can't build it"
    told = says(flags, header, types)
    if told is None:
        return "skipped", "the compiler can't build the program that tells sizes"
    done = subprocess.run([program, "a"], capture_output=True, text=True, timeout=120)
    lines = subprocess.run([program, "-s", "a"], capture_output=True, text=True, timeout=120)
    if done.returncode or lines.returncode:
        return "failed", f"status {done.returncode} and {lines.returncode}, {done.stderr!r}"
    had, sizes = printed(done.stdout), dict(
        line.split("\t")[:2] for line in lines.stdout.splitlines()
    )
    for t in types:
        name = t["name"]
        if name not in had:
            return "failed", f"no {name}"
        fault = wrong(t, told[name], had[name])
        if not fault and sizes[name] != str(told[name][0]):
            fault = f"{sizes[name]} bytes by -s"
        if fault:
            return "failed", f"{name}: {fault}"
    count = sum(name is not None for t in types for name, _ in t["members"])
    what = f"{len(types)} structures and unions with {count} members"
    return "passed", f"{what} are as the compiler lays them out"


HOLE = "struct s { int a : 1; int b; } kept;\nint main(void) { return 0; }\n"


def behind_a_bit_field(program):
    """The holes with whole bytes behind a bit of an int: here 31 bits are 3 bytes and 7 bits,
    and for Debian's tool pahole, which counts them by the field's type, 31 bits."""
    if not shutil.which("pahole"):
        return "skipped", "pahole is not installed"
    with open("hole.c", "w") as file:
        file.write(HOLE)
    if not built([], "hole", ["hole.c"]):
        return "skipped", "the compiler can't build it"
    ours, theirs = (
        subprocess.run([tool, "-s", "hole"], capture_output=True, text=True).stdout
        for tool in (program, "pahole")
    )
    if (ours, theirs) != ("s\t8\t1\n", "s\t8\t0\n"):
        return "failed", f"{ours!r}, and Debian's pahole says {theirs!r}"
    return "passed", "one hole of whole bytes here, none by Debian's pahole"


def main():
    program, demo, folder = (os.path.abspath(word) for word in sys.argv[1:4])
    os.chdir(folder)
    text, types = made_types(random.Random(20261127))
    with open("made.c", "w") as file:
        file.write(text)
    with open("made.h", "w") as file:
        file.write(text.replace("int main(void) { return 0; }\n", ""))
    with open("demo.h", "w") as file:
        with open(f"{demo}/registry.c") as source:
            file.write(source.read().replace('"registry.h"', f'"{demo}/registry.h"'))
    programs = [
        (
            "demo",
            "demo.h",
            [f"{demo}/registry.c", f"{demo}/main.c"],
            [named(c, members) for c, members in DEMO],
        ),
        ("made", "made.h", ["made.c"], types),
    ]
    for flags in WAYS:
        for name, header, sources, all_types in programs:
            verdict, why = checked(program, flags, header, sources, all_types)
            print(f"{verdict} layouts {' '.join([name, *flags])}: {why}")
    verdict, why = behind_a_bit_field(program)
    print(f"{verdict} layouts behind a bit field: {why}")


if __name__ == "__main__":
    main()
