"""A program under test. It runs in an empty folder for each row of a table. The rows that pass are counted."""
import os
import re
import resource
import signal
import subprocess
import tempfile
from typing import NamedTuple


class Ran(NamedTuple):
    """How a run ended: its status, standard output and standard error, the files that are in its folder afterwards, and
    the run's processor time in seconds."""

    status: int
    out: str
    err: str
    files: dict
    seconds: float


class Program:
    """A program, and how many rows passed and failed."""

    def __init__(self, path, seconds=60):
        self.path = os.path.abspath(path)
        self.seconds = seconds
        self.passed = 0
        self.failed = 0

    def run(self, words, files=None, stdin="", before=None):
        """Runs the program with these arguments in a folder with these files, by path. `before` is called in the new process first."""
        with tempfile.TemporaryDirectory() as folder:
            for path, text in (files or {}).items():
                write(folder, path, text)
            ran = self.run_in(folder, words, stdin, before)
            return ran._replace(files={path: text_of(folder, path) for path in paths_below(folder)})

    def run_in(self, folder, words, stdin="", before=None):
        """Runs the program in an existing folder, without a look at its files afterwards."""
        start = processor_seconds()
        try:
            ran = subprocess.run(
                [self.path, *words], cwd=folder, input=in_bytes(stdin), capture_output=True, timeout=self.seconds,
                check=False, preexec_fn=before,
            )
        except subprocess.TimeoutExpired:
            return Ran(-signal.SIGKILL, "", f"no end within {self.seconds} seconds", {}, self.seconds)
        return Ran(ran.returncode, in_text(ran.stdout), in_text(ran.stderr), {}, processor_seconds() - start)

    def check(self, table, row, got, want):
        """Counts a row. It passes if the result is the expected one."""
        if got == want:
            self.passed += 1
            return
        self.failed += 1
        print(f"{os.path.basename(self.path)}: {table}: {shown(row)}\n  wanted {shown(want)}\n  got    {shown(got)}")


def shown(value):
    """A value as it is printed: only the start and the end of a long one."""
    text = repr(value)
    return text if len(text) <= 4000 else f"{text[:2000]} .. {text[-2000:]}"


def processor_seconds():
    """The processor time of the ended processes, in seconds."""
    used = resource.getrusage(resource.RUSAGE_CHILDREN)
    return used.ru_utime + used.ru_stime


def spelled(text):
    """The text, with `«3 a»` as `aaa`."""
    return re.sub("«([0-9]+) ([^»]*)»", lambda it: it[2] * int(it[1]), text)


def in_bytes(text):
    return text if isinstance(text, bytes) else text.encode()


def in_text(output):
    """Output as text; a byte that isn't UTF-8 is kept as an escape."""
    return output.decode(errors="backslashreplace")


def write(folder, path, text):
    """Writes a file, and makes the folders around it. A path that ends with a `/` is a folder."""
    at = os.path.join(folder, path)
    os.makedirs(os.path.dirname(at), exist_ok=True)
    if path.endswith("/"):
        return
    with open(at, "wb") as it:
        it.write(in_bytes(text))


def text_of(folder, path):
    with open(os.path.join(folder, path), "rb") as it:
        return in_text(it.read())


def paths_below(folder):
    """The paths of all files below a folder, from there on, in order."""
    found = []
    for at, _, names in os.walk(folder):
        found += [os.path.relpath(os.path.join(at, name), folder) for name in names]
    return sorted(found)
