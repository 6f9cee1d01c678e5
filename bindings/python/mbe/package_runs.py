"""The task of one package of a corpus: runs of the program `expandm`, within limits."""
from __future__ import annotations

import functools
import hashlib
import json
import os
import re
import shutil
import signal
import subprocess
import tempfile
import time
from collections import Counter
from dataclasses import dataclass
from typing import IO, Any, Callable, Iterable, Iterator, Mapping, Optional, Sequence, Union

#: What a run of `expandm` on a package says, and the results of a package: objects of JSON.
Json = dict[str, Any]
#: How a run ends. It is `done` if `expandm` has read the package, whatever it reports.
OUTCOMES = ("done", "refused", "time", "memory", "signal")
#: The runs of a package, in their order. The others need that `plan` is done.
RUNS = ("plan", "lint", "expand")
#: The version of the records in `OUT/packages`. Records of another version count as none.
VERSION = 1
#: Files in the folders above a package that `expandm` may read.
ABOVE = ("Cargo.toml", "Cargo.lock", ".cargo/config.toml", ".cargo/config")
#: Folders that are no input.
LEFT_OUT = (".git", "target")
#: The lines of `expandm --plan`: name, edition, root file and features.
PLAN_LINE = re.compile(rb"^\S+ \d+ (.*?\.rs)(?: \S+)?$", re.M)


class NoResult(Exception):
    """A package has no result, as when its workers died. A later run tries it again."""


@dataclass(frozen=True)
class Limits:
    """The limits of a package: its time, its memory, and how often it is tried again."""

    seconds: float = 60.0
    megabytes: int = 2048
    retries: int = 2


@dataclass(frozen=True)
class Job:
    """The task of a package. `known` is the key of its earlier results. `run` names the whole
    run: a dependency is read once in it by each worker."""

    package: str
    folder: str
    program: str
    options: tuple[str, ...] = ()
    limits: Limits = Limits()
    known: Optional[str] = None
    run: str = ""


@dataclass(frozen=True)
class Record:
    """The results of a package. `key` is the hash of its input. `seconds`, `attempts` and `host`
    say how it went, and aren't part of the results."""

    package: str
    key: str
    result: Json
    limits: Limits
    seconds: float
    attempts: int
    host: str


#: What a task returns: a record, or None if the earlier results are of the same input.
Done = Optional[Record]
#: What a pool gives for each job, in any order.
Answer = tuple[Job, Union[Done, NoResult]]
Pool = Callable[[Sequence[Job], Callable[[Job], Done]], Iterator[Answer]]


# ---- one run of the program

@dataclass(frozen=True)
class Ran:
    """A run: how it ended, its status, its output and its errors."""

    outcome: str
    status: Optional[int]
    output: bytes
    errors: bytes


def _outcome(status: int, errors: bytes) -> str:
    if status == -signal.SIGXCPU:
        return "time"
    if status < 0:
        return "signal"
    if status in (0, 1):
        return "done"
    said = [_diagnostic(line) for line in errors.splitlines()[-1:]]
    is_memory = any(it["message"].endswith("out of memory") for it in said)
    return "memory" if is_memory else "refused"


def _read_back(file: IO[bytes]) -> bytes:
    file.seek(0)
    return file.read()


def _limited(words: Sequence[str], folder: str, limits: Limits, seconds: float) -> Ran:
    """Runs a program in a folder with at most that memory and time."""
    if seconds <= 0:
        return Ran("time", None, b"", b"")
    # A worker may have threads, so a shell sets the limits. The limit of processor time ends the
    # program if the worker dies.
    script = f'ulimit -v {limits.megabytes * 1024}; ulimit -t {int(seconds) + 1}; exec "$@"'
    with tempfile.TemporaryFile() as output, tempfile.TemporaryFile() as errors:
        started = subprocess.Popen(
            ["sh", "-c", script, "sh", *words], cwd=folder, stdin=subprocess.DEVNULL,
            stdout=output, stderr=errors, start_new_session=True)
        try:
            status: Optional[int] = started.wait(seconds)
        except subprocess.TimeoutExpired:
            status = None
        finally:
            if started.poll() is None:
                os.killpg(started.pid, signal.SIGKILL)
                started.wait()
        said = _read_back(errors)
        if status in (126, 127):
            raise OSError(said.decode(errors="replace").strip())
        outcome = "time" if status is None else _outcome(status, said)
        return Ran(outcome, status, _read_back(output), said)


def _diagnostic(line: bytes) -> Json:
    """A diagnostic of `expandm --json`, without its text for people; or a line of other text."""
    try:
        found = json.loads(line)
    except ValueError:
        found = None
    if not isinstance(found, dict) or not isinstance(found.get("message"), str):
        return {"level": "text", "message": line.decode(errors="replace")}
    return {name: value for name, value in found.items() if name != "rendered"}


def _result_of(ran: Ran) -> Json:
    said = [_diagnostic(line) for line in ran.errors.splitlines() if line.strip()]
    levels = Counter(it.get("level") for it in said)
    return {"outcome": ran.outcome, "status": ran.status, "errors": levels["error"],
            "warnings": levels["warning"], "diagnostics": said}


# ---- the input of a package

def _hash_of_file(path: str) -> str:
    found = hashlib.sha256()
    with open(path, "rb") as it:
        while part := it.read(1 << 20):
            found.update(part)
    return found.hexdigest()


def files_below(folder: str) -> Iterator[tuple[str, str]]:
    """The files below a folder, in order: the path from there, and the path to open."""
    for at, folders, names in os.walk(folder):
        folders[:] = sorted(it for it in folders if it not in LEFT_OUT)
        for path in (os.path.join(at, name) for name in sorted(names)):
            if os.path.isfile(path):
                yield os.path.relpath(path, folder), path


def _hash_of(parts: Iterable[str]) -> str:
    found = hashlib.sha256()
    for it in parts:
        found.update(it.encode(errors="surrogateescape") + b"\0")
    return found.hexdigest()


@functools.lru_cache(maxsize=4096)
def _hash_of_folder(folder: str, run: str) -> str:
    found = (f"{name}\0{_hash_of_file(path)}" for name, path in files_below(folder))
    return _hash_of(found)


@functools.lru_cache(maxsize=16)
def _hash_of_program(path: str, run: str) -> str:
    return _hash_of_file(path)


def _package_folder(root: str) -> str:
    """The folder of the package of a root file."""
    at = os.path.dirname(root)
    while not os.path.exists(f"{at}/Cargo.toml") and os.path.dirname(at) != at:
        at = os.path.dirname(at)
    return at


def _settings(folder: str) -> Iterator[str]:
    """What `expandm` reads outside of packages: files above the folder, settings, a variable."""
    yield os.environ.get("RUSTFLAGS", "")
    home = os.environ.get("CARGO_HOME") or os.path.expanduser("~/.cargo")
    paths = [f"{home}/config.toml"]
    while os.path.dirname(folder) != folder:
        folder = os.path.dirname(folder)
        paths += [f"{folder}/{name}" for name in ABOVE]
    yield from (_hash_of_file(it) for it in paths if os.path.isfile(it))


def key_of(job: Job, program: str, plan: Ran) -> str:
    """The hash of the input: the program, its options, and the files of the package and of its
    dependencies."""
    folder = os.path.realpath(job.folder)
    roots = (os.path.join(folder, os.fsdecode(it)) for it in PLAN_LINE.findall(plan.output))
    folders = {folder, *(os.path.realpath(_package_folder(it)) for it in roots)}
    return _hash_of([
        str(VERSION), _hash_of_program(program, job.run), *job.options, plan.outcome,
        plan.output.decode(errors="surrogateescape"), *_settings(folder),
        *(_hash_of_folder(it, job.run) for it in sorted(folders))])


# ---- the task of a package

def _written(folder: str) -> dict[str, str]:
    """The hash of each file that `expandm --write` wrote, without its own lists."""
    found = {name: _hash_of_file(path) for name, path in files_below(folder)}
    return {name: it for name, it in found.items() if os.path.basename(name) != ".expandm"}


def _attempt(job: Job, program: str) -> Optional[tuple[str, Json]]:
    """The key of a package, and its results. None if the earlier results have this key."""
    end = time.monotonic() + job.limits.seconds
    words = [program, "--manifest-path", "Cargo.toml", "--json", *job.options]

    def ran(*more: str) -> Ran:
        left = end - time.monotonic()
        return _limited([*words, *more], job.folder, job.limits, left)

    plan = ran("--plan")
    key = key_of(job, program, plan)
    if key == job.known:
        return None
    runs: Json = {"plan": _result_of(plan)}
    if plan.outcome == "done":
        runs["lint"] = _result_of(ran("--lint"))
        with tempfile.TemporaryDirectory(prefix="mbe-corpus-") as room:
            runs["expand"] = _result_of(ran("--write", room))
            runs["expand"]["files"] = _written(room)
    crates = len(PLAN_LINE.findall(plan.output))
    return key, {"package": job.package, "crates": crates, "runs": runs}


def _path_of(program: str) -> str:
    found = shutil.which(program)
    if found is None:
        raise OSError(f"no program {program}")
    return os.path.abspath(found)


def may_change(result: Mapping[str, Any]) -> bool:
    """Whether another try may have another result: a run took too long, or a signal ended it."""
    return any(it["outcome"] in ("time", "signal") for it in result["runs"].values())


def run_package(job: Job) -> Done:
    """Runs `expandm` on a package: its plan, its lint and its expansion.

    A package is tried again if a run takes too long, is ended by a signal, or can't be started.
    Returns None if the earlier results are of the same input. Raises `NoResult` if the program
    can't be started or a file can't be read.
    """
    begun, attempt = time.monotonic(), 0
    while True:
        attempt += 1
        is_last = attempt > job.limits.retries
        try:
            found = _attempt(job, _path_of(job.program))
        except OSError as why:
            if is_last:
                raise NoResult(f"{os.uname().nodename}: {why}") from why
            time.sleep(0.1 * attempt)
            continue
        if found is None:
            return None
        key, result = found
        if is_last or not may_change(result):
            seconds = round(time.monotonic() - begun, 3)
            host = os.uname().nodename
            return Record(job.package, key, result, job.limits, seconds, attempt, host)
