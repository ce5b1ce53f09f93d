"""beside.py PROGRAM BTF NAME..: whether PROGRAM and Debian's tool pahole place the members of
structures of a BTF file alike: of each direct member the first bit, and its size where it is no
bit field; the size of each structure, and the bits of its holes together. What differs in form
alone is in docs/COMPAT.md."""
import re
import subprocess
import sys

MEMBER = re.compile(r"^\t(?!\s)(.*?)\s*/\*\s*(\d+)(?:\s*:\s*(\d+))?\s+(\d+) \*/$")
CLOSED = re.compile(r"^\t\}\s*(.*?);\s*/\*\s*(\d+)(?:\s*:\s*(\d+))?\s+(\d+) \*/$")
SUMS = re.compile(r"/\* size: (\d+), cachelines: \d+, members: (\d+)")
HOLES, BITS = re.compile(r"sum holes: (\d+)"), re.compile(r"sum bit holes: (\d+) bits")


def name_of(declaration):
    """A member's own name, without its type, its array's length and its bits; none for a
    structure without a name."""
    plain = re.sub(r"__attribute__\(\(.*\)\)", "", declaration).strip().rstrip(";")
    inner = re.search(r"\(\s*\*+\s*(?:const )?(\w+)", plain)
    if inner:
        return inner[1]
    found = re.search(
        r"(\w+)\s*(?:\[.*\])?\s*(?::\d+)?$", re.sub(r"\{\.\.\.\}\s*", "{...} ", plain)
    )
    return None if not found or plain.endswith("}") else found[1]


def described(text):
    """The members in order, and the sums."""
    members = []
    for line in text.splitlines():
        found = MEMBER.match(line) or CLOSED.match(line)
        if found and not found[1].endswith("{"):
            name = name_of(found[1])
            bits = ":" in found[1].split(";")[0] and re.search(r":\d+", found[1])
            members.append(
                (name, 8 * int(found[2]) + int(found[3] or 0), None if bits else int(found[4]))
            )
    sums = SUMS.search(text)
    free = 8 * sum(map(int, HOLES.findall(text))) + sum(map(int, BITS.findall(text)))
    return [one for one in members if one[0]], sums and sums.groups(), free


def shown(words):
    return subprocess.run(words, capture_output=True, text=True, check=False).stdout


def main():
    program, table, *names = sys.argv[1:]
    failed = False
    for name in names:
        ours, theirs = (
            described(shown([tool, "-F", "btf", "-C", name, table])) for tool in (program, "pahole")
        )
        wrong = next((f"{a} here, {b} there" for a, b in zip(ours[0], theirs[0]) if a != b), None)
        if wrong is None and ours != theirs:
            wrong = f"{len(ours[0])} members, {ours[1:]} here, {len(theirs[0])}, {theirs[1:]} there"
        if wrong:
            print(f"failed beside {name}: {wrong}")
        else:
            print(f"passed beside {name}: {len(ours[0])} members")
        failed |= wrong is not None
    return failed


if __name__ == "__main__":
    sys.exit(main())
