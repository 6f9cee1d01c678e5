#!/usr/bin/env python3
"""Compares the tests of `expandm --lint` with rustc: what is wrong with definitions, and where.

Three tables are compared:

- tests/expandm/following.py: each row is a definition and its findings. A finding is `followed NAME
  A B`, `twice NAME A B` or `unknown NAME A`, where A and B are byte offsets. In rustc each finding
  must be an error at its last offset, and there must be no other error. The location of a variable
  begins at its `$` in rustc, and at its name in the row.
- DEFINITIONS of tests/expandm/linted.py: line, column and text of each error that rustc has too,
  and of rustc's warnings that a variable is unknown or still repeats.
- SIMILAR of tests/expandm/linted.py: an unknown specifier and the similar one. rustc must name
  the similar one where a struct has the specifiers as its fields.

The script prints each row that differs.
"""
import json
import os
import re
import sys

sys.path.insert(0, os.path.dirname(os.path.dirname(os.path.abspath(__file__))))
import common  # noqa: E402

sys.path.insert(0, f"{common.TOP}/tests")
from expandm import following, linted  # noqa: E402

# The lints of a row that rustc reports too, and the messages of rustc that a row must have.
OURS = re.compile(
    r"(\d+:\d+ )(?:error|warning): ((?:duplicate|invalid|`|variable|the `\?`|unknown macro).*?); ")
THEIRS = re.compile(r"duplicate matcher|invalid fragment|followed by|still repeating"
                    r"|not take a separator|unknown macro variable `\w")

KINDS = (("followed", "followed"), ("duplicate", "twice"), ("invalid fragment", "unknown"))


def wanted(definition, found):
    """What rustc must report: each error's kind and its byte offset."""
    result = []
    for line in filter(None, found.split(";")):
        kind, _, *places = line.split()
        place = int(places[-1])
        is_variable = kind != "followed" or definition[place - 1] == "$"
        result.append((kind, place - is_variable))
    return sorted(result)


def diagnostics(rustc, text, edition, *words):
    """The diagnostics of rustc on a file, as JSON."""
    with common.folder() as folder:
        common.write(f"{folder}/t.rs", text)
        ran = common.rustc(*words, "--error-format=json", "--emit=metadata", "t.rs",
                           edition=edition, program=rustc, cwd=folder)
    return [json.loads(line) for line in ran.stderr.splitlines()]


def reported(rustc, all_rows):
    """What rustc reports of each row."""
    text = "".join(f"macro_rules! m {{ {definition} }}\n" for definition, _ in all_rows)
    lines = diagnostics(rustc, text + "fn main() {}\n", "2024")
    found = {}
    for message in lines:
        spans = [span for span in message["spans"] if span["is_primary"]]
        if message["level"] == "error" and spans:
            kind = next((ours for theirs, ours in KINDS if theirs in message["message"]), message["message"])
            place = spans[0]["column_start"] - 1 - len("macro_rules! m { ")
            found.setdefault(spans[0]["line_start"] - 1, []).append((kind, place))
    return found


def messages(rustc, text):
    """What rustc says of a file, with line and column."""
    words = ["--crate-type", "lib", "-W", "meta_variable_misuse"]
    for message in diagnostics(rustc, text, "2021", *words):
        for span in message["spans"]:
            if span["is_primary"]:
                yield f"{span['line_start']}:{span['column_start']} {message['message']}", message


def differing_files(rustc, all_rows):
    """The rows whose errors aren't those of rustc."""
    for text, want in all_rows:
        ours = sorted(place + words for place, words in OURS.findall(want))
        theirs = sorted(line for line, _ in messages(rustc, text) if THEIRS.search(line))
        if ours != theirs:
            yield f"{text}: {ours}; rustc: {theirs}"


def differing_names(rustc, all_rows):
    """The unknown specifiers for which rustc names another field."""
    specifiers = common.read(f"{common.TOP}/crates/mbe_diagnostics/src/lints/similar_specifier.rt")
    fields = re.findall(r'^    "(\w+)",', specifiers, re.M)
    text = f"pub struct S {{ {', '.join(f'pub {name}: u8' for name in fields)} }}\n"
    text += "".join(f"pub fn f_{name}(s: S) {{ let _ = s.r#{name}; }}\n" for name, _ in all_rows)
    found = {}
    for line, message in messages(rustc, text):
        name = re.search(r"no field `(?:r#)?(\w+)`", line)
        similar = [span["suggested_replacement"] for child in message["children"] for span in child["spans"] if "similar name" in child["message"]]
        if name:
            found[name.group(1)] = "".join(similar)
    for name, want in all_rows:
        if found.get(name) != want:
            yield f"{name}: {want}; rustc: {found.get(name)}"


def differing_rows(rustc, all_rows):
    """The rows of tests/expandm/following.py whose findings aren't those of rustc."""
    found = reported(rustc, all_rows)
    for number, (definition, ours) in enumerate(all_rows):
        theirs = sorted(found.get(number, []))
        if wanted(definition, ours) != theirs:
            yield f"{definition}: {ours}; rustc: {theirs}"


def main():
    parser = common.arguments(__doc__)
    parser.add_argument("rustc", metavar="RUSTC", nargs="?", default="rustc",
                        help="the rustc to compare with")
    rustc = parser.parse_args().rustc
    count, differ = 0, 0
    for what, all_rows, found in (
        ("rows", following.FOLLOWING, differing_rows),
        ("files", linted.DEFINITIONS, differing_files),
        ("names", linted.SIMILAR, differing_names),
    ):
        lines = list(found(rustc, all_rows))
        print("".join(f"{line}\n" for line in lines) + f"{len(all_rows)} {what}, {len(lines)} differ")
        count += len(all_rows)
        differ += len(lines) + (not all_rows)
    return common.finish(count - differ, differ)


if __name__ == "__main__":
    sys.exit(main())
