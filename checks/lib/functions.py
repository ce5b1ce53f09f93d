"""functions.py PROGRAM SOURCE DEMO FOLDER: encodes the functions of programs that compilers
build of SOURCE in FOLDER, and compares them with what clang says of them; and those of the
program of DEMO."""
import os
import shutil
import subprocess
import sys

from described import Described

# compilers, each with ways in which it builds the program
BUILT = {
    "cc": ["", "-gdwarf-4", "-O1 -fno-inline", "-O2", "-flto", "-r -nostdlib", "-m32"],
    "clang": ["-glldb", "-gdwarf-4", "-O1 -fno-inline", "-c"],
    "aarch64-linux-gnu-gcc": ["", "-c"],
    "s390x-linux-gnu-gcc": ["", "-gdwarf-4"],
}
# what the BPF target can't have
OTHERS = {
    "external_of_structures": (
        True,
        "FUNC_PROTO  INT int 0 {node@0x0 STRUCT node; either@0x0 UNION either}",
        ["node", "either"],
    ),
    "external_with_more": (
        True,
        "FUNC_PROTO  INT int 0 {count@0x0 INT int; @0x0 void}",
        ["count", ""],
    ),
}


# the functions of the program of demo/, and whether other units can call them
OF_DEMO = {"main": True, "by_kind": False, "store_of": True, "registry_size": True}


def run(words):
    return subprocess.run(words, capture_output=True, text=True, timeout=120)


def contents(path):
    with open(path, "rb") as file:
        return file.read()


def of_clang(source):
    """The functions that clang writes as BTF, or why there are none. It knows parameters' names
    where it optimizes."""
    cutter = shutil.which("llvm-objcopy") or shutil.which("objcopy")
    if not shutil.which("clang") or not cutter:
        return None
    clang = "clang -target bpf -w -g -O1 -fno-inline -c -o bpf.o".split()
    cut = [cutter, "--dump-section", ".BTF=bpf.btf", "bpf.o", os.devnull]
    if run([*clang, source]).returncode or run(cut).returncode:
        return None
    return Described(contents("bpf.btf")).functions()


def encoded(program, *words):
    """The functions in the table of the built file, and its bytes; or the complaint."""
    done = run([program, "--btf_encode_detached=o", *words, "a"])
    if done.returncode:
        return done.stderr.strip(), None
    return Described(contents("o")).functions(), contents("o")


def fault(program, told):
    """What is wrong with the functions of a built file."""
    had, data = encoded(program, "--funcs")
    if data is None:
        return had
    if encoded(program, "--funcs", "-j4")[1] != data:
        return "four workers store other bytes"
    if encoded(program)[0] != {}:
        return "there are functions without --funcs"
    for name in sorted(set(told) | set(had)):
        if told.get(name) != had.get(name):
            return f"{name} is {had.get(name)}, wanted {told.get(name)}"
    return None


def beside_pahole():
    """Names that this program or Debian's tool pahole finds alone."""
    if run(["pahole", "--btf_encode_detached=p", "a"]).returncode:
        return "it writes no file"
    here, there = (set(Described(contents(path)).functions()) for path in ("o", "p"))
    return f"{sorted(here ^ there)} are in one table alone" if here != there else None


def of_demo(program, demo):
    """What is wrong with the functions of the program of demo/, as this program and bpftool tell
    them, and libbpf reads them."""
    if run(["cc", "-w", "-g", "-o", "a", f"{demo}/registry.c", f"{demo}/main.c"]).returncode:
        return "it can't be built"
    had, data = encoded(program, "--funcs")
    if data is None:
        return had
    if {name: told[0] for name, told in had.items()} != OF_DEMO:
        return f"it has {sorted(had)}"
    reader = f"{os.path.dirname(os.path.abspath(__file__))}/structures.c"
    if (
        run(["cc", "-o", "structures", reader, "-lbpf"]).returncode == 0
        and run(["./structures", "o"]).returncode
    ):
        return "libbpf refuses it"
    if not shutil.which("bpftool"):
        return None
    dump = run(["bpftool", "btf", "dump", "file", "o"]).stdout
    lines = [f"FUNC '{name}' " for name in OF_DEMO if f"FUNC '{name}' " not in dump]
    return f"bpftool does not tell {lines}" if lines else None


def main():
    program, source, demo, folder = (os.path.abspath(word) for word in sys.argv[1:])
    os.chdir(folder)
    told = of_clang(source)
    if told is None:
        print("skipped functions: clang for the BPF target or objcopy is not installed")
        return
    told = {**told, **OTHERS}
    for compiler, ways in BUILT.items():
        if not shutil.which(compiler):
            print(f"skipped functions {compiler}: it is not installed")
            continue
        for way in ways:
            name = f"functions {compiler} {way}".rstrip()
            if run([compiler, "-w", "-g", *way.split(), "-o", "a", source]).returncode:
                print(f"skipped {name}: it builds no file")
                continue
            wrong = fault(program, told)
            print(f"failed {name}: {wrong}" if wrong else f"passed {name}: {len(told)} functions")
    wrong = of_demo(program, demo)
    if wrong:
        print(f"failed functions demo: {wrong}")
    else:
        print(f"passed functions demo: {len(OF_DEMO)} functions")
    if (
        run(["cc", "-w", "-g", "-o", "a", source]).returncode == 0
        and run([program, "--btf_encode_detached=o", "--funcs", "a"]).returncode == 0
    ):
        peers = [
            ("bpftool", lambda: run(["bpftool", "btf", "dump", "file", "o"]).stderr.strip()),
            ("pahole", beside_pahole),
        ]
        for peer, asked in peers:
            if not shutil.which(peer):
                print(f"skipped functions {peer}: it is not installed")
                continue
            wrong = asked()
            print(f"failed functions {peer}: {wrong}" if wrong else f"passed functions {peer}")


if __name__ == "__main__":
    main()
