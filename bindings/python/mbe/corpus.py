"""Lints and expands many packages by the program `expandm`, and writes their results.

`run` goes through the packages of a folder, on a pool of `mbe.pools`. `package_runs` has the task
of one package.
"""
from __future__ import annotations

import argparse
import json
import os
import re
import shutil
import sys
import time
import uuid
from collections import Counter
from dataclasses import replace
from typing import Any, Iterable, Iterator, Optional, Sequence, TextIO

from . import pools
from .package_runs import (OUTCOMES, RUNS, VERSION, Job, Limits, NoResult, Pool, Record,
                           run_package)


# ---- the folder of results

def _replace_file(path: str, text: str) -> None:
    """Writes a file as a whole or not at all."""
    made = f"{path}.{os.getpid()}.tmp"
    with open(made, "w", encoding="utf-8") as it:
        it.write(text)
        it.flush()
        os.fsync(it.fileno())
    os.replace(made, path)


def _dumped(it: Any) -> str:
    return json.dumps(it, sort_keys=True, separators=(",", ":"))


class Results:
    """The folder OUT: a record of each package, and what is made of all of them."""

    def __init__(self, out: str) -> None:
        self.out = out
        os.makedirs(f"{out}/packages", exist_ok=True)

    def _path(self, package: str) -> str:
        return f"{self.out}/packages/{package}.json"

    def read(self, package: str) -> Optional[Record]:
        """The record of a package, or None if there is none that can be read."""
        try:
            with open(self._path(package), encoding="utf-8") as it:
                found = json.load(it)
            if found.pop("version") != VERSION:
                return None
            limits = Limits(**found.pop("limits"))
            return Record(limits=limits, **found)
        except (OSError, ValueError, TypeError, KeyError, AttributeError):
            return None

    def write(self, record: Record) -> None:
        fields = {**vars(record), "limits": vars(record.limits), "version": VERSION}
        _replace_file(self._path(record.package), _dumped(fields) + "\n")

    def finish(self, records: Sequence[Record], summary: str) -> None:
        """Writes the results of all packages, in order, and the summary."""
        lines = (_dumped(it.result) + "\n" for it in records)
        _replace_file(f"{self.out}/results.jsonl", "".join(lines))
        _replace_file(f"{self.out}/summary.txt", summary)


def is_bounded(record: Record, limits: Limits) -> bool:
    """Whether a limit ended a run of the record, and the limit is another one now."""
    found = {it["outcome"] for it in record.result["runs"].values()}
    return (("time" in found and record.limits.seconds != limits.seconds)
            or ("memory" in found and record.limits.megabytes != limits.megabytes))


# ---- summary and progress

def table(head: Sequence[str], rows: Iterable[Sequence[object]]) -> str:
    """Rows below a head. All columns but the first are aligned to the right."""
    texts = [list(head), *([str(it) for it in row] for row in rows)]
    widths = [max(map(len, column)) for column in zip(*texts)]
    lines = []
    for first, *rest in texts:
        cells = [first.ljust(widths[0]), *(it.rjust(n) for it, n in zip(rest, widths[1:]))]
        lines.append("  ".join(cells).rstrip() + "\n")
    return "".join(lines)


def _messages(records: Sequence[Record]) -> Iterator[tuple[str, int, int]]:
    """The most frequent errors and warnings without their names, with the number of packages and
    of times."""
    times: Counter[str] = Counter()
    packages: Counter[str] = Counter()
    for record in records:
        said = [f"{it['level']}: " + re.sub(r"`[^`]*`", "`..`", it["message"])
                for run in record.result["runs"].values() for it in run["diagnostics"]
                if it["level"] in ("error", "warning")]
        times.update(said)
        packages.update(set(said))
    for message, count in sorted(times.items(), key=lambda it: (-it[1], it[0]))[:10]:
        yield message if len(message) <= 70 else message[:69] + "…", packages[message], count


def summary_of(records: Sequence[Record], without: Iterable[str]) -> str:
    """The table of all runs, the most frequent messages, and the packages without results."""
    rows = []
    for run in RUNS:
        found = [it.result["runs"][run] for it in records if run in it.result["runs"]]
        outcomes = Counter(it["outcome"] for it in found)
        rows.append([run, *(outcomes[it] for it in OUTCOMES),
                     sum(it["errors"] for it in found), sum(it["warnings"] for it in found)])
    text = table(["run", *OUTCOMES, "errors", "warnings"], rows)
    if messages := list(_messages(records)):
        text += "\n" + table(["message", "packages", "times"], messages)
    if names := sorted(without):
        text += f"\nwithout results: {', '.join(names)}\n"
    return text


class Progress:
    """A line on how far the run is: in a terminal it is written over, elsewhere it comes again
    after some seconds."""

    def __init__(self, total: int, out: Optional[TextIO]) -> None:
        self.total, self.out = total, out
        self.done = self.unchanged = self.without = 0
        self.last = time.monotonic()

    def line(self) -> str:
        """How many packages are done, how many of them didn't run again, and how many have no
        results."""
        text = f"{self.done} of {self.total} packages"
        text += f", {self.unchanged} unchanged" if self.unchanged else ""
        return text + (f", {self.without} without results" if self.without else "")

    def add(self, answer: object) -> None:
        """Counts the answer of a package, and shows the line."""
        self.done += 1
        self.unchanged += answer is None
        self.without += isinstance(answer, NoResult)
        is_last = self.done == self.total
        if self.out is None:
            return
        if self.out.isatty():
            self.out.write(f"\r\x1b[K{self.line()}" + ("\n" if is_last else ""))
            self.out.flush()
        elif is_last or time.monotonic() - self.last >= 10:
            self.last = time.monotonic()
            print(self.line(), file=self.out, flush=True)


# ---- the whole run

def packages_of(folder: str) -> list[str]:
    """The names of the folders with a Cargo.toml, in order."""
    return sorted(it for it in os.listdir(folder) if os.path.isfile(f"{folder}/{it}/Cargo.toml"))


def _jobs(folder: str, template: Job, records: dict[str, Record]) -> Iterator[Job]:
    for name in packages_of(folder):
        key = records[name].key if name in records else None
        yield replace(template, package=name, folder=os.path.abspath(f"{folder}/{name}"), known=key)


def run(folder: str, out: str, pool: Pool, template: Job,
        progress: Optional[TextIO] = None) -> tuple[list[Record], dict[str, str]]:
    """Runs `expandm` on each package of a folder, and writes the results into `out`.

    `template` has what all jobs share. Returns the records in order, and why a package has no
    result. A record is written when it comes, so a run that was ended goes on from there.
    """
    results = Results(out)
    found = {name: results.read(name) for name in packages_of(folder)}
    records = {name: it for name, it in found.items() if it and not is_bounded(it, template.limits)}
    jobs = list(_jobs(folder, template, records))
    without: dict[str, str] = {}
    shown = Progress(len(jobs), progress)
    for job, answer in pool(jobs, run_package):
        if isinstance(answer, NoResult):
            records.pop(job.package, None)
            without[job.package] = str(answer)
        elif answer is not None:
            records[job.package] = answer
            results.write(answer)
        shown.add(answer)
    in_order = [records[name] for name in sorted(records)]
    results.finish(in_order, summary_of(in_order, without))
    return in_order, without


def is_complete(record: Record) -> bool:
    """Whether all runs of a package are done."""
    found = record.result["runs"]
    return all(name in found and found[name]["outcome"] == "done" for name in RUNS)


# ---- the command

def _at_least(least: float, kind: type[float]) -> Any:
    def read(word: str) -> float:
        number = kind(word)
        if number < least:
            raise argparse.ArgumentTypeError(f"{word} is less than {least}")
        return number
    read.__name__ = "number"
    return read


def add_arguments(parser: argparse.ArgumentParser) -> None:
    """Adds the arguments of the command `corpus`."""
    limits = Limits()
    parser.add_argument("folder", metavar="DIR", help="each folder in DIR with a Cargo.toml counts")
    parser.add_argument("--out", required=True, help="the folder of the results")
    parser.add_argument("--expandm", metavar="PROGRAM", default="expandm",
                        help="the program expandm, if it isn't in the PATH")
    where = parser.add_mutually_exclusive_group()
    where.add_argument("--scheduler", metavar="ADDRESS",
                       help="run on the workers of this Dask scheduler")
    where.add_argument("--workers", type=_at_least(0, int), default=0, metavar="N",
                       help="run in N local processes (the number of processors)")
    parser.add_argument("--timeout", type=_at_least(0, float), default=limits.seconds,
                        metavar="SECONDS", help="limit the time of a package (60)")
    parser.add_argument("--memory", type=_at_least(16, int), default=limits.megabytes,
                        metavar="MB", help="limit the memory of a program (2048)")
    parser.add_argument("--retries", type=_at_least(0, int), default=limits.retries, metavar="N",
                        help="try a package again N times (2)")
    parser.add_argument("--quiet", action="store_true", help="show no progress")


def _pool(args: argparse.Namespace) -> Pool:
    if args.scheduler:
        return pools.cluster(args.scheduler)
    if shutil.which(args.expandm) is None:
        raise OSError(f"no program {args.expandm}: --expandm names it")
    return pools.local(args.workers)


def main(args: argparse.Namespace, options: Sequence[str]) -> int:
    """Runs the command `corpus`. `options` are for `expandm`. Returns the exit status: 1 if a run
    of a package isn't done, and 2 if nothing can run."""
    program = os.path.abspath(args.expandm) if "/" in args.expandm else args.expandm
    limits = Limits(args.timeout, args.memory, args.retries)
    template = Job("", "", program, tuple(options), limits, None, uuid.uuid4().hex)
    try:
        if not packages_of(args.folder):
            raise OSError(f"no folder with a Cargo.toml in {args.folder}")
        pool = _pool(args)
        shown = None if args.quiet else sys.stderr
        records, without = run(args.folder, args.out, pool, template, shown)
    except (OSError, pools.NoCluster) as why:
        print(f"error: {why}", file=sys.stderr)
        return 2
    except KeyboardInterrupt:
        print(f"\nended: {args.out} has the results so far", file=sys.stderr)
        return 2
    for name, why_not in sorted(without.items()):
        print(f"{name}: {why_not}", file=sys.stderr)
    print(summary_of(records, without), end="")
    return 1 if without or not all(map(is_complete, records)) else 0
