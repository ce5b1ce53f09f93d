"""What README.md and docs/ name is there, and what has to be told there is told."""
import re

from pages import CRATES, PAGES, alone, found, read, tell

CODE, NAME = re.compile(r"`([^`]+)`"), re.compile(r"[A-Za-z]\w*")
PATH = re.compile(r"(?:[\w.-]+/)+[\w.*-]*|[\w-]+\.(?:md|sh|py|txt|antt)")


def blocks(text):
    """The lines of tables, and the paragraphs, each with the crate that it begins with; examples,
    which are indented, are left out."""
    for block in re.split(r"\n\s*\n", text):
        for part in block.split("\n") if block.startswith("|") else [block]:
            if not block.startswith("    "):
                yield part, re.match(r"(?:\*\*(\w+)\*\*)?", part)[1]


def paths_of(block, crate):
    """Each path that a block names, and the files that it may be: it begins at the top, at
    crates/, or at the block's crate, or is a folder that each crate has."""
    for word in filter(PATH.fullmatch, CODE.findall(block)):
        places = ["", "crates/", f"crates/{crate}/", *["crates/*/"] * word.endswith("/")]
        yield word, [path for place in places for path in found(place + word)]


def wrong_options(page):
    """Options of examples that are in no table."""
    table = read("crates/command_line/specs/Options.antt") + '"--help" "--version" "--explain="'
    for command in re.findall(r"^    (?:\$ )?pahole ([^|<>&\n]*)", read(page), re.M):
        for option in re.findall(r"(?<!\S)(?:--\w+=?|-\w)", command):
            if f'"{option}"' not in table:
                yield f"no option {option}"


def wrong_links(page):
    """Links that lead to no file, or to no heading of it."""
    for path, anchor in re.findall(r"\]\(([^)#]*)#?([^)]*)\)", read(page)):
        file = f"{page.rpartition('/')[0]}/{path}".lstrip("/") if path else page
        heads = re.findall(r"^#+ (.*)", read(file), re.M) if found(file) else []
        names = {re.sub(r"[^\w -]", "", head.lower()).replace(" ", "-") for head in heads}
        if not found(file) or anchor and anchor not in names:
            yield f"no {path}#{anchor}"


def check_page(page):
    paths = [path for block in blocks(read(page)) for path in paths_of(*block)]
    faults = [f"no {word}" for word, files in paths if not files]
    faults += [*wrong_options(page), *wrong_links(page)]
    tell(f"paths of {page}", faults, f"{len(paths)} paths")


def check_proof():
    """The page on proofs, up to what no clause can refuse: each definition is in a file that its
    row, or else the text above the table, names, or in its paragraph's crate; what a row quotes
    stands so in such a file; and each crate with definitions has a paragraph."""
    faults, number, told, above = [], 0, set(), []
    for block, crate in blocks(read("docs/PROOF.md").partition("## What no clause can refuse")[0]):
        files = [path for _, some in paths_of(block, crate) for path in some if path[-1] == "t"]
        if crate in CRATES:
            told.add(crate)
            files += found(f"crates/{crate}/s*/**/*.*t")
        elif not block.startswith("|"):
            above = files
            continue
        text = " ".join(" ".join(map(read, files or above)).split())
        for word in CODE.findall(block):
            is_name = NAME.fullmatch(word) and (not word.islower() or "_" in word)
            is_quoted = block.startswith("|") and re.search(r" [≡=:→]", word)
            if is_name and word not in CRATES or is_quoted:
                number += 1
                if not re.search(rf"(?<!\w){re.escape(word)}(?!\w)", text):
                    faults.append(f"{word} is not there: {block[:60]!r}")
    defining = {path.split("/")[1] for path in found("crates/*/specs")}
    faults += [f"nothing on {one}" for one in sorted(defining - told)]
    tell("proof", faults, f"{number} definitions, {len(told)} crates")


def check_map():
    """The map has each crate, and each file of its definitions."""
    told, row = set(), re.compile(r"^\|([^|]*)\|[^|]*\|([^|]*)\|$", re.M)
    for crates, names in row.findall(read("docs/ARCHITECTURE.md")):
        for crate in CODE.findall(crates):
            told |= {crate, *(f"crates/{crate}/specs/{name}.antt" for name in CODE.findall(names))}
    files = [path for path in found("crates/*/specs/*.antt") if not path.endswith("/Lib.antt")]
    tell("architecture", alone(told, {*CRATES, *files}), f"{len(CRATES)} crates")


def check_unseen():
    """The page on proofs names each edit that no clause refuses, and no other, and each text that
    one changes stands once in its file."""
    part = read("docs/PROOF.md").partition("## What no clause can refuse")[2].partition("\n## ")[0]
    told = set(re.findall(r"`([a-z]+(?:_[a-z]+)+)`", part)) - set(CRATES)
    edits = found("tools/unseen/*.edit")
    faults = alone(told, {re.split(r"[/.]", edit)[2] for edit in edits})
    for edit in edits:
        crate = re.search(r"^crate: (\w+)", read(edit), re.M)[1]
        for file, rest in re.findall(r"^file: (\S+)((?:\n.*)*?)(?=\nfile: |\Z)", read(edit), re.M):
            whole = read(f"crates/{crate}/{file}")
            for old in re.findall(r"^old: (.*)", rest, re.M):
                if whole.count(old.strip()) != 1:
                    faults.append(f"{edit} changes a text that does not stand once in {file}")
    tell("unseen edits", faults, f"{len(edits)} edits")


check_proof()
check_map()
check_unseen()
for each in PAGES:
    check_page(each)
