"""The processor time of a run of a program."""
import resource
import subprocess


def run(words, folder, limit):
    """The processor time of a run in a folder, in seconds, and how it ended; nothing where it did
    not end in so many seconds."""
    before = resource.getrusage(resource.RUSAGE_CHILDREN)
    quiet = {"stdin": subprocess.DEVNULL, "capture_output": True}
    try:
        done = subprocess.run(words, cwd=folder, timeout=limit, **quiet)
    except subprocess.TimeoutExpired:
        return None, None
    after = resource.getrusage(resource.RUSAGE_CHILDREN)
    return after.ru_utime + after.ru_stime - before.ru_utime - before.ru_stime, done
