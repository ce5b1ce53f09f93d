"""host.py PROGRAM FOLDER: runs PROGRAM in FOLDER, on its file `a`, where the host fails in one
way or another; `disk` is a small full disk, if it is there."""
import os
import shutil
import subprocess
import sys
import threading

SECONDS = 60
# the most bytes of a file, and what else a run reads: its libraries' beginnings, and what this
# program reads of its complaint
LIMIT = 1 << 30
BESIDE = 1 << 16
# words that run a program as nobody, for a user who may read every file
AS_NOBODY = ["setpriv", "--reuid=65534", "--regid=65534", "--clear-groups"]
ENCODE = "--btf_encode_detached="


def read(path):
    with open(path, "rb") as file:
        return file.read()


def run(program, words, **how):
    """The status of a run, and its complaint. Python gives the program the signals' usual
    actions."""
    how = {"stdout": subprocess.PIPE, "stderr": subprocess.PIPE, "stdin": subprocess.DEVNULL, **how}
    done = subprocess.run([program, *words], timeout=SECONDS, **how)
    return done.returncode, done.stderr, done.stdout


def ends(program, words, status, complaint, **how):
    """What differs from a status and a complaint."""
    had, said, _ = run(program, words, **how)
    if had != status:
        return f"status {had}, wanted {status}"
    if said is not None and said.decode() != complaint:
        return f"{said!r}, wanted {complaint!r}"
    return None


def to_nobody():
    """The writing end of a pipe without a reader."""
    reader, writer = os.pipe()
    os.close(reader)
    return writer


def prints_to(program, output):
    return ends(program, ["-s", "a"], 3, "pahole: cannot print\n", stdout=output)


def prints_nowhere(program):
    """Standard output is closed before the program begins."""
    done = subprocess.run(
        ["sh", "-c", '"$0" -s a >&-', program], capture_output=True, timeout=SECONDS
    )
    return (
        None
        if (done.returncode, done.stderr) == (3, b"pahole: cannot print\n")
        else f"status {done.returncode}, {done.stderr!r}"
    )


def complains_to(program, output):
    """The complaint fails: the status stays."""
    return ends(program, ["-s", "missing"], 3, "", stderr=output)


def keeps(program, words, status, complaint):
    """An output that was there is not touched where the run fails."""
    with open("old", "w", encoding="utf-8") as file:
        file.write("old")
    wrong = ends(program, [ENCODE + "old", *words], status, complaint)
    return wrong or (None if read("old") == b"old" else "the output was touched")


def reads_a_pipe(program):
    """A FIFO is read as a file."""
    os.mkfifo("fifo")
    writer = threading.Thread(target=lambda: open("fifo", "wb").write(read("a")))
    writer.start()
    piped = run(program, ["-s", "fifo"])
    writer.join()
    return None if piped == run(program, ["-s", "a"]) else f"status {piped[0]}, {piped[1]!r}"


def bytes_read():
    """How many bytes this process and those that it waited for have read."""
    with open("/proc/self/io") as file:
        return int(dict(line.split(": ") for line in file.read().splitlines())["rchar"])


def reads_no_more_than_the_limit(program):
    """Of a file that never ends one byte more than the limit is read."""
    before = bytes_read()
    wrong = ends(program, ["/dev/zero"], 1, "pahole: /dev/zero: image 0: error 110\n")
    had = bytes_read() - before
    return wrong or (None if LIMIT < had <= LIMIT + BESIDE else f"{had} bytes were read")


def may_not_read(program, starts):
    """The program is not let read `a`; `starts` are the words that run it, as another user."""
    shutil.copy(program, "program")
    os.chmod("program", 0o755)
    os.chmod(".", 0o711)
    words = [*starts, os.path.abspath("program"), "a"]
    os.chmod("a", 0o644)
    wrong = ends(words[0], words[1:], 0, "")
    os.chmod("a", 0o200)
    return wrong or ends(words[0], words[1:], 3, "pahole: cannot read a\n")


def stores_over_its_input(program):
    """The input is read whole before the output is stored."""
    run(program, [ENCODE + "o", "a"])
    with open("both", "wb") as file:
        file.write(read("a"))
    wrong = ends(program, [ENCODE + "both", "both"], 0, "")
    return wrong or (None if read("both") == read("o") else "other bytes are stored")


def stores_on_a_full_disk(program):
    """What is stored is a beginning of the bytes."""
    run(program, [ENCODE + "o", "a"])
    with open("disk/full", "wb") as file:
        file.write(bytes(4096))
    wrong = ends(program, [ENCODE + "disk/o", "a"], 3, "pahole: cannot store disk/o\n")
    left = read("disk/o") if os.path.exists("disk/o") else b""
    return wrong or (None if read("o").startswith(left) else "what is left is no beginning")


def cases(program):
    """What is tried, and what is wrong with it."""
    full = os.open("/dev/full", os.O_WRONLY)
    yield "standard output is full", lambda: prints_to(program, full)
    yield "standard output is a pipe without a reader", lambda: prints_to(program, to_nobody())
    yield "standard output is closed", lambda: prints_nowhere(program)
    yield "standard error is full", lambda: complains_to(program, full)
    yield "standard error is a pipe without a reader", lambda: complains_to(program, to_nobody())
    yield "a file is missing", lambda: ends(
        program, ["missing"], 3, "pahole: cannot read missing\n"
    )
    yield "a file is a folder", lambda: ends(program, ["."], 3, "pahole: cannot read .\n")
    if os.path.exists("/proc/self/io"):
        yield "a file never ends", lambda: reads_no_more_than_the_limit(program)
    else:
        yield "a file never ends", lambda: ends(
            program, ["/dev/zero"], 1, "pahole: /dev/zero: image 0: error 110\n"
        )
        print(
            "skipped host how much is read of a file that never ends: this machine does not tell it"
        )
    yield "the second of two files vanished", lambda: keeps(
        program, ["a", "missing"], 3, "pahole: cannot read missing\n"
    )
    yield "the base vanished", lambda: keeps(
        program, ["--btf_base=missing", "a"], 3, "pahole: cannot read missing\n"
    )
    yield "a refused file keeps an old output", lambda: keeps(
        program, ["/dev/null"], 1, "pahole: /dev/null: image 0: error 10\n"
    )
    yield "the output's folder is missing", lambda: ends(
        program, [ENCODE + "missing/o", "a"], 3, "pahole: cannot store missing/o\n"
    )
    yield "the output is a folder", lambda: ends(
        program, [ENCODE + ".", "a"], 3, "pahole: cannot store .\n"
    )
    yield "the output is full", lambda: ends(
        program, [ENCODE + "/dev/full", "a"], 3, "pahole: cannot store /dev/full\n"
    )
    yield "a file is a pipe", lambda: reads_a_pipe(program)
    yield "the output is an input", lambda: stores_over_its_input(program)
    if os.path.isdir("disk"):
        yield "the disk is full", lambda: stores_on_a_full_disk(program)
    else:
        print("skipped host the disk is full: no small disk can be mounted here")
    starts = AS_NOBODY if os.getuid() == 0 else []
    if starts and (not shutil.which(starts[0]) or subprocess.run([*starts, "true"]).returncode):
        why = "this user may read every file, and can be no other"
        print(f"skipped host a file that may not be read: {why}")
    else:
        yield "a file that may not be read", lambda: may_not_read(program, starts)


def main():
    program, folder = (os.path.abspath(word) for word in sys.argv[1:])
    os.chdir(folder)
    for name, tried in cases(program):
        try:
            wrong = tried()
        except subprocess.TimeoutExpired:
            wrong = f"no end within {SECONDS} seconds"
        print(f"failed host {name}: {wrong}" if wrong else f"passed host {name}", flush=True)


main()
