"""examples.py PROGRAM FOLDER PAGE..: runs the commands `$ ..` of pages in FOLDER, in their
order, with PROGRAM as `pahole`, and compares what they print with the page. `$ cat FILE` shows a
file that is made of the page. Where the tool of a command is missing, it is skipped by name, with
all behind it in its part of the page."""
import os
import re
import shutil
import subprocess
import sys

# commands that are run; what else a page shows is for readers
RUN = ("pahole", "cc", "diff", "clang", "bpftool", "nm", "cat")


def lines_of(page):
    """The lines of a page's examples, without what marks them as such, each with the heading of its
    part; None for all other lines."""
    with open(page, encoding="utf-8") as file:
        lines = file.read().splitlines()
    inside, is_manual, heading = False, not page.endswith(".md"), ""
    for line in lines:
        inside = is_manual and (line == ".EX" or inside and line != ".EE")
        if re.match(r"#|\.SH", line):
            heading = line
        if is_manual:
            yield heading, line.replace("\\-", "-") if inside and line != ".EX" else None
        else:
            yield heading, line[4:] if line.startswith("    ") else None if line else ""


def examples(page):
    """Commands with what they print, up to the next command or the example's end, and the heading
    of their part."""
    found, last = [], []
    for heading, line in lines_of(page):
        if line is None or line.startswith("$ "):
            last = []
            if line is not None and line.split(" ")[1] in RUN:
                found.append((line[2:], last, heading))
        else:
            last.append(line)
    return found


def laid_out(text):
    """A text without tabs, and without spaces at the ends of its lines, which a page does not
    keep."""
    return "\n".join(line.expandtabs().rstrip() for line in text.splitlines()).rstrip()


def run(command, wanted, folder):
    """What is wrong with a command, or nothing."""
    if command.startswith("cat "):
        with open(os.path.join(folder, command[4:]), "w", encoding="utf-8") as file:
            file.write("\n".join([*wanted, ""]))
        return None
    words = ["bash", "-o", "pipefail", "-c", command]
    done = subprocess.run(words, cwd=folder, capture_output=True, text=True, timeout=120)
    had = laid_out(done.stdout + done.stderr)
    # `diff` ends with 1 where it finds something, and so does an error
    ends = 1 if command.startswith("diff ") or had.startswith("pahole: ") else 0
    if done.returncode == ends and had == laid_out("\n".join(wanted)):
        return None
    return f"it ends with {done.returncode} and prints {had!r}"


program, folder, *pages = (os.path.abspath(word) for word in sys.argv[1:])
os.mkdir(f"{folder}/bin")
os.symlink(program, f"{folder}/bin/pahole")
os.environ["PATH"] = f"{folder}/bin:{os.environ['PATH']}"
for page in pages:
    missing, of = None, None
    for command, wanted, heading in examples(page):
        name, tool = f"{os.path.basename(page)}: {command}", command.split(" ")[0]
        missing, of = missing if heading == of else None, heading
        missing = missing or (None if shutil.which(tool) else tool)
        if missing:
            print(f"skipped examples {name}: {missing} is not installed")
        elif fault := run(command, wanted, folder):
            print(f"failed examples {name}: {fault}")
        else:
            print(f"passed examples {name}")
