#!/usr/bin/env python3
"""Compares programs before and after `expandm`, by rustc: each must compile, and do the same.

A PATH is a Rust file or a folder of them, such as /usr/src/rustc-1.63.0/src/test/ui/macros of
Debian's package rust-src. A file counts if it defines macros, rustc compiles it by itself, and
its program ends with status 0. A file that needs other files or a feature doesn't count. The
edition is the one of the file's line `// edition:YEAR`, else 2015.

`expandm` expands each file, rustc compiles the result, and the script runs it. The script prints
a line for each file that differs, with the reason.
"""
import os
import re
import subprocess
import sys
from concurrent.futures import ThreadPoolExecutor

sys.path.insert(0, os.path.dirname(os.path.dirname(os.path.abspath(__file__))))
import common  # noqa: E402

LEFT_OUT = re.compile(
    r"#!?\[feature|aux-build|proc_macro|extern crate|^\s*(pub )?mod \w+;|include|compile-flags",
    re.M)


def edition(text):
    found = re.search(r"//\s*edition:\s*(\d+)", text)
    return found[1] if found else "2015"


def outcome(source, year, folder):
    """What the compiled program writes and how it ends, or why there is none."""
    program = f"{folder}/{abs(hash(source))}.out"
    made = common.rustc("-Awarnings", "-o", program, source, edition=year)
    if made.returncode:
        return None, made.stderr
    try:
        ran = common.run([program], binary=True, timeout=60, stdin=subprocess.DEVNULL)
    except subprocess.TimeoutExpired:
        return None, "it takes more than a minute"
    finally:
        os.remove(program)
    return (ran.returncode, ran.stdout), ran.stderr.decode(errors="replace")


def counted(paths):
    """The files that may count, with their editions and texts."""
    found = {}
    for path in common.rust_files(paths):
        text = common.read(path)
        if "macro_rules" in text and "fn main" in text and not LEFT_OUT.search(text):
            found[path] = (edition(text), text)
    return found


def expand(program, work, year, files):
    """Expands the files of an edition, by path and text, and returns the expanded files by path."""
    reported, after = "", {}
    for number, (path, text) in enumerate(files.items()):
        # Two folders may have files of the same name.
        name = f"{number}-{os.path.basename(path)}"
        before = f"{work}/cases{year}/{name}"
        common.write(before, text)
        ran = common.run([program, "--no-modules", "--edition", year, before])
        after[path] = f"{work}/{year}_{name}"
        common.write(after[path], ran.stdout)
        reported += ran.stderr
    common.write(f"{work}/said{year}.txt", reported)
    return after


def compare(program, paths, work):
    """How many files may count, how many run, and how many differ."""
    tried, differ = counted(paths), 0
    with ThreadPoolExecutor(2) as pool:
        before = dict(zip(tried, pool.map(lambda it: outcome(it, tried[it][0], work), tried)))
        runs = {path: it[0] for path, it in before.items() if it[0] and it[0][0] == 0}
        for year in common.EDITIONS:
            files = {path: tried[path][1] for path in runs if tried[path][0] == year}
            after = expand(program, work, year, files) if files else {}
            results = pool.map(lambda it, year=year: outcome(it, year, work), after.values())
            for path, (got, why) in zip(after, results):
                if got != runs[path]:
                    differ += 1
                    print(f"{os.path.basename(path)}: {common.first_error(why)}")
    return len(tried), len(runs), differ


def main():
    parser = common.arguments(__doc__)
    parser.add_argument("paths", metavar="PATH", nargs="+")
    common.add_expandm(parser)
    parser.add_argument("--keep", metavar="FOLDER", help="keep the expanded files in FOLDER")
    args = parser.parse_args()
    with common.folder(args.keep) as work:
        tried, runs, differ = compare(common.expandm(args.program), args.paths, work)
    print(f"{tried} files tried, {runs} run, {differ} differ when they are expanded")
    return common.finish(runs - differ, differ)


if __name__ == "__main__":
    sys.exit(main())
