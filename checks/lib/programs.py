"""programs.py PROGRAM DEMO FOLDER: encodes and shows programs that compilers build of DEMO's
sources in FOLDER."""
import os
import re
import shutil
import subprocess
import sys

from btf import Member, structures
from compiler import build, says
from described import Described
from elf import sections, units
from larger import larger

# compilers, each with the ways in which it builds the program: for this machine, for others with
# big-endian numbers of 64 bits (two) and of 32 bits, for AArch64, and clang, which in versions 14
# and 15 places bit fields by DW_AT_bit_offset without -glldb; -r links to a relocatable object
ACCEPTED = {
    "cc": [
        "",
        "-static",
        "-static-pie",
        "-m32",
        "-m32 -static",
        "-gdwarf64",
        "-m32 -gdwarf64",
        "-g3",
        "-flto",
        "-O2",
        "-shared -fPIC",
        "-fshort-enums -fpack-struct=2",
        "-gdwarf-4",
        "-gdwarf-4 -m32",
        "-gdwarf-4 -gdwarf64",
        "-r -nostdlib",
        "-gdwarf-4 -r -nostdlib",
    ],
    "powerpc64-linux-gnu-gcc": ["", "-static", "-gdwarf64", "-g3", "-flto", "-gdwarf-4"],
    "s390x-linux-gnu-gcc": ["", "-static", "-gdwarf-4"],
    "mips-linux-gnu-gcc": ["", "-static", "-gdwarf64", "-gdwarf-4"],
    "aarch64-linux-gnu-gcc": ["", "-r -nostdlib", "-gdwarf-4 -r -nostdlib"],
    "clang": [
        "",
        "-m32",
        "-glldb",
        "-glldb -flto -fuse-ld=lld",
        "-glldb -m32",
        "-gdwarf-4",
        "-gdwarf-4 -m32",
        "-glldb -r -nostdlib",
    ],
}
# how a file is built, and what a tool then makes of it that is still accepted
TREATED = [
    ("", ["dwz"]),
    ("", ["objcopy", "--only-keep-debug"]),
    ("-gz", ["objcopy", "--decompress-debug-sections"]),
]
# flags that change how the types lie
OF_LAYOUT = {"-m32", "-fshort-enums", "-fpack-struct=2"}
DEBUG_SECTIONS = [
    ".debug_info",
    ".debug_abbrev",
    ".debug_str",
    ".debug_line_str",
    ".debug_str_offsets",
]


def run(words):
    return subprocess.run(words, capture_output=True, timeout=120)


def sources_of(demo):
    return [f"{demo}/registry.c", f"{demo}/main.c"]


def contents(path):
    with open(path, "rb") as file:
        return file.read()


def encoded(program, jobs, files=("a",)):
    """A run's status, complaint and stored bytes."""
    if os.path.exists("o"):
        os.remove("o")
    done = run([program, "--btf_encode_detached=o", jobs, *files])
    return done.returncode, done.stderr, contents("o") if os.path.exists("o") else None


def fault_of_table(told, had):
    """What differs between the table and what the compiler says."""
    for name, (size, places, _) in told.items():
        if name not in had:
            return f"no {name}"
        if had[name][:2] != (size, places):
            return f"{name} is {had[name][:2]}, the compiler says {(size, places)}"
    return None


# a member's line: its name, behind which may stand brackets or the bits of a bit field, and its
# place
LINE = re.compile(r"\t.*?(\w+)(?:\[\d*\])*(?::\d+)?; */\* +(\d+)(?::(\d+))? +(\d+) \*/")
SIZE = re.compile(r"\t/\* size: (\d+),")


def fault_of_layouts(program, told, had):
    """What differs between the printed layouts and what the compiler says; inner members are not
    printed."""
    for name, (size, places, sizes) in told.items():
        one, four = run([program, "-C", name, "a"]), run([program, "-j4", "-C", name, "a"])
        if one.returncode != 0 or one.stdout != four.stdout:
            same = one.stdout == four.stdout
            return f"-C {name}: status {one.returncode}, {one.stderr!r}; equal texts: {same}"
        text = one.stdout.decode()
        printed = {}
        for member, byte, bit, count in LINE.findall(text):
            field = places[member].bits != 0
            printed[member] = Member(8 * int(byte) + int(bit or 0), int(count) if field else 0)
            if not field and int(count) != sizes[member]:
                says = f"the compiler says {sizes[member]}"
                return f"{name}.{member} is shown with {count} bytes, {says}"
        wanted = {member: place for member, place in places.items() if member not in had[name][2]}
        if printed != wanted:
            return f"{name} is shown as {printed}, the compiler says {wanted}"
        if SIZE.findall(text) != [str(size)]:
            return f"{name} is shown with {SIZE.findall(text)} bytes, the compiler says {size}"
        # the program of 32 bits has no type `long` to tell the width of pointers by
        if (
            contents("a")[4] == 2
            and run([program, "-F", "btf", "-C", name, "o"]).stdout != one.stdout
        ):
            return f"{name} is shown otherwise from the BTF file"
    return None


def fault_of_readers(readers, told):
    """What other readers of BTF, where they are installed, make of the stored file."""
    for form in ("raw", "c"):
        if (
            "bpftool" in readers
            and run([readers["bpftool"], "btf", "dump", "file", "o", "format", form]).returncode
            != 0
        ):
            return f"bpftool refuses it as {form}"
    if "pahole" in readers:
        for line in run([readers["pahole"], "-s", "a"]).stdout.decode().splitlines():
            name, size, _ = line.split("\t")
            if name in told and told[name][0] != int(size):
                return (
                    f"pahole says that {name} has {size} bytes, the compiler says {told[name][0]}"
                )
    if "libbpf" not in readers:
        return None
    done = run([readers["libbpf"], "o"])
    if done.returncode != 0:
        return "libbpf refuses it"
    read = {}
    for line in done.stdout.decode().splitlines():
        name, size, *members = line.split(" ")
        rows = (re.match(r"(.*)=(\d+):(\d+)", member).groups() for member in members)
        read[name] = (
            int(size),
            {member: Member(int(bit), int(bits)) for member, bit, bits in rows},
        )
    for name in read.keys() & told.keys():
        size, places, _ = told[name]
        if read[name][0] != size or not read[name][1].items() <= places.items():
            return f"libbpf reads {name} as {read[name]}, the compiler says {(size, places)}"
    return None


def verdict_on(program, demo, readers, compiler, flags):
    """Whether the file `a`, which a compiler built, is encoded and shown as it has to be."""
    told = says(compiler, demo, [flag for flag in flags if flag in OF_LAYOUT])
    if told is None:
        return "skipped", "the compiler can't build what it is asked for sizes by"
    one, four = encoded(program, "-j1"), encoded(program, "-j4")
    if one[0] != 0 or one != four:
        return (
            "failed",
            f"one worker: {one[:2]}, four: {four[:2]}, equal bytes: {one[2] == four[2]}",
        )
    had = structures(one[2])
    fault = (
        fault_of_table(told, had)
        or fault_of_readers(readers, told)
        or fault_of_layouts(program, told, had)
    )
    if not fault and encoded(program, "-j1", ("a", "a"))[2] != one[2]:
        fault = "the file given twice stores other bytes"
    return (
        ("failed", fault)
        if fault
        else ("passed", f"{os.path.getsize('a')} bytes of ELF, {len(one[2])} bytes of BTF")
    )


def accepted(program, demo, readers, compiler, flags):
    if not build(compiler, flags, "a", sources_of(demo)):
        return "skipped", "the compiler can't build it"
    return verdict_on(program, demo, readers, compiler, flags)


def treated(program, demo, readers, flags, words):
    """A file that a tool changed after it was linked."""
    if not shutil.which(words[0]):
        return "skipped", f"{words[0]} is not installed"
    if not build("cc", flags, "a", sources_of(demo)) or run([*words, "a"]).returncode != 0:
        return "skipped", "it can't be made"
    return verdict_on(program, demo, readers, "cc", flags)


def compressed():
    """The first section of debugging information that is compressed."""
    for section in sections(contents("a")):
        if section.name in DEBUG_SECTIONS and section.flags & 0x800:
            return f"image {section.header}: error 13 {DEBUG_SECTIONS.index(section.name) + 1}"
    return "a compressed section"


def other_unit():
    """The first unit that is neither a compilation unit nor a partial unit."""
    for at, unit_type in units(contents("a")):
        if unit_type not in (1, 3):
            return f".debug_info {at}: error 22 {unit_type}"
    return "a unit of another type"


# how a file is built that is refused, and its refusal
REFUSED = [
    ("-gz", compressed),
    ("-gdwarf-3", lambda: ".debug_info 0: error 21 3"),
    ("-gsplit-dwarf", other_unit),
    ("-fdebug-types-section", other_unit),
    ("-s", lambda: "image 0: error 14"),
    ("-m32 -r -nostdlib", lambda: "image 18: error 17 3"),
]


def refused(program, demo, flags, wanted):
    if not build("cc", flags, "a", sources_of(demo)):
        return "skipped", "the compiler can't build it"
    return is_refused(program, ("a",), re.escape(f"pahole: a: {wanted()}\n"))


def is_refused(program, files, line):
    status, complaint, stored = encoded(program, "-j1", files)
    if status != 1 or stored is not None or not re.fullmatch(line, complaint.decode()):
        return "failed", f"status {status}, {complaint!r}, wanted {line!r}"
    return "passed", complaint.decode().strip()


def mixed(program, demo):
    """Two files of different classes."""
    if not build("cc", [], "a", sources_of(demo)) or not build(
        "cc", ["-m32"], "b", sources_of(demo)
    ):
        return "skipped", "the compiler can't build them"
    return is_refused(program, ("a", "b"), "pahole: b: image 4: error 16\n")


def without_strings(program, demo):
    """A file without its section of strings."""
    if (
        not build("cc", [], "a", sources_of(demo))
        or run(["objcopy", "-R", ".debug_str", "a"]).returncode != 0
    ):
        return "skipped", "it can't be made"
    return is_refused(program, ("a",), r"pahole: a: \.debug_info \d+: error 42 \d+\n")


def without_offsets(program, demo):
    """A file of clang without its section of the places of strings."""
    if not shutil.which("clang") or not build("clang", ["-glldb"], "a", sources_of(demo)):
        return "skipped", "clang can't build it"
    if run(["objcopy", "-R", ".debug_str_offsets", "a"]).returncode != 0:
        return "skipped", "it can't be made"
    return is_refused(program, ("a",), r"pahole: a: \.debug_info \d+: error 43 \d+\n")


def supplementary(program, demo):
    """A file whose types refer to a supplementary file."""
    with open("more.c", "w") as file:
        file.write(f'#include "{demo}/registry.h"\n')
        file.write("struct more { struct packet packet; union word *word; } more;\n")
    for out, sources in (("a", [*sources_of(demo), "more.c"]), ("b", sources_of(demo))):
        if not build("cc", [], out, sources):
            return "skipped", "the compiler can't build it"
    if not shutil.which("dwz") or run(["dwz", "-m", "common", "a", "b"]).returncode != 0:
        return "skipped", "dwz is not installed, or can't make it"
    return is_refused(program, ("a",), r"pahole: a: \.debug_info \d+: error 44 \d+\n")


def strange(alone, linked):
    """A named type of one table that another doesn't have; what is only declared in the one may
    be defined in the other."""
    heads = {tuple(told.split(" ", 2)[:2]) for told in linked}
    for told in sorted(alone - linked):
        kind, name, _, flag = told.split(" ")[:4]
        if kind != "FWD" or (("STRUCT", "UNION")[int(flag)], name) not in heads:
            return told
    return None


def objects(program, sources, compiler, flags):
    """The objects of a program, as files of one run, give the table of the linked program, and
    each alone some of its types."""
    if not shutil.which(compiler):
        return "skipped", "it is not installed"
    apart = [f"{number}.o" for number in range(len(sources))]
    for out, words in [*zip(apart, ([source, "-c"] for source in sources)), ("linked", sources)]:
        if not build(compiler, flags, out, words):
            return "skipped", f"the compiler can't build {out}"
    linked, together = encoded(program, "-j1", ("linked",)), encoded(program, "-j1", apart)
    if together != encoded(program, "-j4", apart) or together != linked or linked[0] != 0:
        same = together[2] == linked[2]
        both = f"the objects: {together[:2]}, the linked program: {linked[:2]}"
        return "failed", f"{both}, equal bytes: {same}"
    known, counts = Described(linked[2]).named(), []
    for out in apart:
        status, complaint, stored = encoded(program, "-j1", (out,))
        if status != 0:
            return "failed", f"{out} alone: status {status}, {complaint!r}"
        named = Described(stored).named()
        other = strange(named, known)
        if other:
            told = f"a type that the linked program has not: {other[:200]}"
            return "failed", f"{out} alone has {told}"
        counts.append(len(named))
    alone = f"alone the objects have {min(counts)} to {max(counts)}"
    return "passed", f"{len(linked[2])} bytes of BTF, {len(known)} named types; {alone}"


# C and Rust in one program, of DWARF 5 and 4
MIXED = {
    "main.c": """struct of_c { int only; } of_c;
extern int rust(void);
int main(void) { return rust() + of_c.only; }
""",
    "part.rs": """#![no_std]
pub struct OfRust { pub one: u32 }
#[no_mangle]
pub extern "C" fn rust() -> i32 { OfRust { one: 0 }.one as i32 }
#[panic_handler]
fn stop(_: &core::panic::PanicInfo) -> ! { loop {} }
""",
}


def with_rust(program):
    """Units of Rust beside those of C are passed over."""
    for name, text in MIXED.items():
        with open(name, "w") as file:
            file.write(text)
    rust = "rustc -g -Cpanic=abort --crate-type=lib --emit=obj -o part.o part.rs".split()
    if not shutil.which("rustc") or run(rust).returncode != 0:
        return "skipped", "rustc is not installed, or can't build it"
    if not build("cc", [], "a", ["main.c", "part.o"]) or not build("cc", ["-c"], "b", ["main.c"]):
        return "skipped", "the compiler can't build it"
    both, alone = encoded(program, "-j1"), encoded(program, "-j1", ("b",))
    if both != alone or both[0] != 0:
        return (
            "failed",
            f"with Rust: {both[:2]}, without: {alone[:2]}, equal bytes: {both[2] == alone[2]}",
        )
    return "passed", f"{len(units(contents('a')))} units, {len(both[2])} bytes of BTF"


# pointers with one tag and with two, and one without
TAGGED = """#define tag(name) __attribute__((btf_type_tag(name)))
struct tagged { int tag("user") *one; int tag("user") tag("percpu") *two; int *none; } tagged;
"""


def type_tags(program, readers):
    """Tags of types, as clang writes them, are types of the table between a pointer and what it
    points to."""
    with open("tagged.c", "w") as file:
        file.write(TAGGED)
    if (
        not shutil.which("clang")
        or not build("clang", ["-c"], "a", ["tagged.c"])
        or b"btf_type_tag" not in contents("a")
    ):
        return "skipped", "clang can't build it"
    status, complaint, stored = encoded(program, "-j1")
    if status != 0:
        return "failed", f"status {status}, {complaint!r}"
    shown = run([program, "-C", "tagged", "a"]).stdout.decode()
    wanted = ['int __attribute__((btf_type_tag("user"))) *one;', "int *none;"]
    if any(line not in re.sub(r" +", " ", shown) for line in wanted) or shown.count("percpu") != 1:
        return "failed", f"shown as {shown!r}"
    if "libbpf" in readers and run([readers["libbpf"], "o"]).returncode != 0:
        return "failed", "libbpf refuses it"
    if "bpftool" not in readers:
        return "passed", f"{len(stored)} bytes of BTF"
    told = run([readers["bpftool"], "btf", "dump", "file", "o", "format", "raw"]).stdout.decode()
    if (
        len(re.findall(r"TYPE_TAG 'user'", told)) != 2
        or len(re.findall(r"TYPE_TAG 'percpu'", told)) != 1
    ):
        return "failed", f"bpftool tells {told!r}"
    return "passed", f"{len(stored)} bytes of BTF, read by bpftool"


def of_both_versions(program, demo, compiler):
    """The table of the program by DWARF 4 is that by DWARF 5, but for types that are made of
    `_Atomic` ones, which gcc does not tell in version 4."""
    tables = []
    for version in ("-gdwarf-4", "-gdwarf-5"):
        if run([compiler, "-w", version, "-o", "a", *sources_of(demo)]).returncode:
            return "skipped", "it builds no file"
        status, complaint, stored = encoded(program, "-j1")
        if status:
            return "failed", f"{version}: {complaint!r}"
        tables.append(Described(stored).named())
    atomic = {tuple(told.split(" ", 2)[:2]) for told in tables[1] if "_Atomic" in told}
    alone = [told for told in tables[0] ^ tables[1] if tuple(told.split(" ", 2)[:2]) not in atomic]
    return (
        ("failed", f"{alone[0][:200]} is in one alone")
        if alone
        else ("passed", f"{len(tables[0] & tables[1])} types are the same")
    )


def found_readers(folder):
    """Other readers: of BTF bpftool and a program over libbpf, of DWARF Debian's pahole."""
    readers = {}
    tool = shutil.which("bpftool", path=f"{os.environ.get('PATH', '')}:/usr/sbin:/sbin")
    if tool:
        readers["bpftool"] = tool
    else:
        print("skipped programs bpftool: it is not installed")
    if shutil.which("pahole"):
        readers["pahole"] = shutil.which("pahole")
    else:
        print("skipped programs pahole: it is not installed")
    if run(["cc", "-o", "structures", f"{folder}/structures.c", "-lbpf"]).returncode == 0:
        readers["libbpf"] = "./structures"
    else:
        print("skipped programs libbpf: its headers are not installed")
    return readers


def main():
    program, demo, folder = (os.path.abspath(word) for word in sys.argv[1:4])
    os.chdir(folder)
    readers = found_readers(os.path.dirname(os.path.abspath(__file__)))

    def say(name, verdict):
        print(f"{verdict[0]} programs {name}: {verdict[1]}", flush=True)

    for compiler, ways in ACCEPTED.items():
        if not shutil.which(compiler):
            print(f"skipped programs {compiler}: it is not installed")
            continue
        for way in ways:
            say(
                f"{compiler} {way}".strip(), accepted(program, demo, readers, compiler, way.split())
            )
    for flags, words in TREATED:
        say(
            f"cc {flags} {' '.join(words)}".replace("  ", " "),
            treated(program, demo, readers, flags.split(), words),
        )
    for way, wanted in REFUSED:
        say(f"cc {way}", refused(program, demo, way.split(), wanted))
    for compiler, way in (
        ("cc", ""),
        ("cc", "-gdwarf-4"),
        ("clang", "-glldb"),
        ("aarch64-linux-gnu-gcc", ""),
    ):
        say(
            f"objects of {compiler} {way}".strip(),
            objects(program, sources_of(demo), compiler, way.split()),
        )
    for compiler, way in (("gcc", ""), ("gcc", "-gdwarf-4"), ("clang", "-glldb")):
        say(
            f"objects of a larger program by {compiler} {way}".strip(),
            objects(program, larger(), compiler, way.split()),
        )
    for compiler in ("cc", "clang", "s390x-linux-gnu-gcc"):
        if shutil.which(compiler):
            say(f"of DWARF 4 and 5 by {compiler}", of_both_versions(program, demo, compiler))
    say("with Rust", with_rust(program))
    say("with tags of types", type_tags(program, readers))
    say("of two classes", mixed(program, demo))
    say("without strings", without_strings(program, demo))
    say("without places of strings", without_offsets(program, demo))
    say("with a supplementary file", supplementary(program, demo))


main()
