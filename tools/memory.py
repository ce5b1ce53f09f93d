"""memory.py PROGRAM LIBRARY CASE..: runs PROGRAM on each case of crates/run_cases/data and
refuses it one request for memory, each in turn, by LIBRARY (tools/refuse.c); then that one and
all later ones. Each time it ends with status 4, its complaint, and nothing printed or stored, or
with the case's own answer. The environment's STEP tries every STEPth request alone, and MOST
bounds how many of each case are tried: they are then spread over all."""
import os
import subprocess
import sys
import tempfile

SECONDS = 60
DATA = os.path.join(os.path.dirname(os.path.abspath(__file__)), "..", "crates", "run_cases", "data")
OUTPUT = "o"


def read(path, otherwise=None):
    if not os.path.exists(path):
        return otherwise
    with open(path, "rb") as file:
        return file.read()


def unhex(text):
    return None if text is None else bytes.fromhex(text.decode())


class Case:
    """A folder of crates/run_cases/data (the README.md there)."""

    def __init__(self, name):
        def of(file):
            return read(os.path.join(DATA, name, file))

        self.name = name
        self.words = of("words").decode().splitlines()
        self.files = {
            file: unhex(of(f"file.{file}.hex"))
            for file in "abB"
            if of(f"file.{file}.hex") is not None
        }
        rows = dict(line.split(" ", 1) for line in of("expect").decode().splitlines())
        complaint = f"{rows['complaint']}\n".encode() if "complaint" in rows else b""
        self.answer = (
            int(rows["status"]),
            of("printed.txt") or b"",
            complaint,
            unhex(of(f"stored.{OUTPUT}.hex")),
        )


# what a run answers that gets no memory: its status, what it prints, complains and stores. `main`
# says nothing where it gets none for the words
REFUSED = [(4, b"", complaint, None) for complaint in (b"pahole: out of memory\n", b"")]


def run(program, library, case, **settings):
    """What a run answers, and how many requests for memory it made."""
    with tempfile.TemporaryDirectory() as folder:
        for name, data in case.files.items():
            with open(os.path.join(folder, name), "wb") as file:
                file.write(data)
        count = os.path.join(folder, "count")
        asked = {**os.environ, "LD_PRELOAD": library, "REFUSE_COUNT": count, **settings}
        done = subprocess.run(
            [program, *case.words],
            cwd=folder,
            env=asked,
            capture_output=True,
            stdin=subprocess.DEVNULL,
            timeout=SECONDS,
        )
        answer = done.returncode, done.stdout, done.stderr, read(os.path.join(folder, OUTPUT))
        return answer, int(read(count, b"0"))


def spread(count):
    """The numbers of the requests that are tried."""
    step = max(int(os.environ.get("STEP", 1)), -(-count // int(os.environ.get("MOST", count or 1))))
    return range(1, count + 1, step)


def faults(program, library, case):
    """What is wrong with a case, after how many runs, and how many of them were refused."""
    answer, count = run(program, library, case)
    if answer != case.answer or not count:
        return f"without a refusal {answer}, {count} requests", 1, 0
    runs = refused = 0
    for number in spread(count):
        for later in ({}, {"REFUSE_ALL": "1"}):
            answer, _ = run(program, library, case, REFUSE=str(number), **later)
            runs += 1
            refused += answer in REFUSED
            if answer not in (*REFUSED, case.answer):
                which = f"{number} of {count}{' and all later ones' if later else ''}"
                return f"request {which}: {answer}", runs, refused
    return None, runs, refused


def main():
    program, library, *names = sys.argv[1:]
    wrong = 0
    for name in names:
        fault, runs, refused = faults(
            os.path.abspath(program), os.path.abspath(library), Case(name)
        )
        wrong += fault is not None
        what = f"passed memory {name}: {runs} runs, {refused} refused"
        print(f"failed memory {name}: {fault}" if fault else what, flush=True)
    sys.exit(1 if wrong else 0)


main()
