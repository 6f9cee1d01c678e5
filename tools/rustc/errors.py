#!/usr/bin/env python3
"""Compares the errors about macros that `expandm` and rustc report of files that don't compile.

A PATH is a Rust file or a folder of them. Debian's package rust-src has rustc's own tests, such as

    /usr/src/rustc-1.63.0/src/test/ui/macros

rustc reads each file by itself, in the edition that its line `// edition:YEAR` names. Without one
it is 2015 below a folder `test`, and else 2021. A file that needs other files, options or a feature
doesn't count.

The script compares each error of rustc whose message is about macros by example. `expandm` runs
with --lint. Each error is in one of these columns:

    equal      the same message at the same place
    place      an error at the same place
    line       an error in the same line
    elsewhere  an error in another line
    none       no error

The script prints a table with the messages, and with --list a line for each error that has no
equal. It fails if fewer than 75 in 100 errors are equal.
"""
import collections
import json
import os
import re
import sys
from concurrent.futures import ThreadPoolExecutor

sys.path.insert(0, os.path.dirname(os.path.dirname(os.path.abspath(__file__))))
import common  # noqa: E402

NEEDS_MORE = re.compile(
    r"#!?\[feature|aux-build|proc[_-]macro|^\s*(pub )?mod \w+;|compile-flags|revisions|include!"
    r"|ignore-test|needs-|//\s*@?\s*only-",
    re.M)
# Parts of rustc's messages on macros by example.
ABOUT_MACROS = (
    "no rules expected",
    "unexpected end of macro invocation",
    "local ambiguity when calling macro",
    "ambiguity: multiple successful parses",
    "cannot find macro",
    "attempted to repeat",
    "meta-variable",
    "is still repeating",
    "fragment specifier",
    "fragments",
    "duplicate matcher binding",
    "recursion limit reached while expanding",
    "macros must contain at least one rule",
    "repetition matches empty token tree",
    "expected one of: `*`, `+`, or `?`",
    "macro expansion ignores",
    "macro repetition operator",
    "macro matcher",
    "macro rhs",
)


class Error:
    """An error: its message, and the line and the column of its place."""

    def __init__(self, message, line, column):
        self.message, self.line, self.column = message, line, column


def errors_in(lines, path):
    """The errors that lines of JSON report at places in that file."""
    found = []
    for line in lines.splitlines():
        if not line.startswith("{"):
            continue
        one = json.loads(line)
        spans = [it for it in one.get("spans", ()) if it.get("is_primary")]
        if one.get("level") != "error" or not spans:
            continue
        span = spans[0]
        if os.path.basename(span["file_name"]) == os.path.basename(path):
            found.append(Error(one["message"], span["line_start"], span["column_start"]))
    return found


def is_about_macros(message):
    return any(it in message for it in ABOUT_MACROS)


def of_rustc(path, year):
    ran = common.rustc("--error-format=json", "--emit=metadata", "-Awarnings", "-o", os.devnull,
                       "--cap-lints=warn", path, edition=year)
    return [it for it in errors_in(ran.stderr, path) if is_about_macros(it.message)]


def of_expandm(program, path, year):
    found = []
    for more in (["--lint"], []):
        ran = common.run([program, "--no-modules", "--edition", year, "--json", *more, path],
                         timeout=60)
        found += errors_in(ran.stderr + "\n" + ran.stdout, path)
    return found


def words(message):
    """The message without what stands in quotes."""
    return re.sub(r"`[^`]*`", "`..`", message)


def agreement(error, ours):
    same_line = [it for it in ours if it.line == error.line]
    same_place = [it for it in same_line if it.column == error.column]
    if any(it.message == error.message for it in same_place):
        return "equal", ""
    if same_place:
        return "place", same_place[0].message
    if same_line:
        return "line", f"{same_line[0].column}: {same_line[0].message}"
    if ours:
        return "elsewhere", f"{ours[0].line}:{ours[0].column}: {ours[0].message}"
    return "none", ""


# How many errors of a hundred must be equal.
LEAST = 75
AGREEMENTS = ["equal", "place", "line", "elsewhere", "none"]


def compare(program, path):
    """The errors of rustc in a file, each with how `expandm` agrees."""
    text = common.read(path)
    if NEEDS_MORE.search(text):
        return []
    year = common.edition_of_file(path, text)
    wanted = of_rustc(path, year)
    if not wanted:
        return []
    try:
        ours = of_expandm(program, path, year)
    except Exception as error:  # a program that doesn't end
        return [(path, it, "none", str(error)) for it in wanted]
    return [(path, it, *agreement(it, ours)) for it in wanted]


def main():
    parser = common.arguments(__doc__)
    common.add_expandm(parser)
    parser.add_argument("--list", action="store_true", help="list the errors without an equal")
    parser.add_argument("paths", metavar="PATH", nargs="+")
    options = parser.parse_args()
    program = options.program or common.expandm()
    files = common.rust_files(options.paths)
    with ThreadPoolExecutor(2) as pool:
        rows = [row for rows in pool.map(lambda it: compare(program, it), files) for row in rows]
    counts = collections.defaultdict(collections.Counter)
    for path, error, how, ours in rows:
        counts[words(error.message)][how] += 1
        if options.list and how != "equal":
            print(f"{path}:{error.line}:{error.column}: {how}\n  {error.message}\n  {ours}")
    table = [(message, *(count[it] for it in AGREEMENTS)) for message, count in
             sorted(counts.items(), key=lambda it: -sum(it[1].values()))]
    total = [sum(count[it] for count in counts.values()) for it in AGREEMENTS]
    common.print_table(("rustc's error", *AGREEMENTS), [*table, ("all", *total)])
    wanted = -(-sum(total) * LEAST // 100)
    return common.finish(total[0], max(0, wanted - total[0]))


if __name__ == "__main__":
    sys.exit(main())
