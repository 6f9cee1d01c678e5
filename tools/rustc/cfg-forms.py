#!/usr/bin/env python3
"""Compares the rows of tests/expandm/attributes.py with rustc: which `#[cfg]` attributes hold,
and what is wrong with the others.

The script compiles each attribute in edition 2021, under the options that the tests give to
`expandm`. It prints each row on which rustc differs.
"""
import os
import pathlib
import re
import sys

sys.path.insert(0, os.path.dirname(os.path.dirname(os.path.abspath(__file__))))
import common  # noqa: E402

sys.path.insert(0, f"{common.TOP}/tests")
from expandm.attributes import FAULTS, HOLD  # noqa: E402

OPTIONS = ["--cfg", "yes", "--cfg", 'mode="fast"', "--cfg", 'feature="std"',
           "--target", "x86_64-unknown-linux-gnu"]

# What rustc says of each sort of fault: one of these texts.
MESSAGES = {
    "Malformed": ["E0539", "wrong meta list delimiters", "wrong `cfg_attr` delimiters"],
    "NotOne": ["E0805"],
    "Invalid": ["E0537"],
    "Unstable": ["E0658"],
    "NoName": ["expected identifier", "expected a literal", "E0539"],
    "Path": ["E0539"],
    "NoString": ["E0539", "expected a literal"],
    "Suffix": ["suffixes on string literals are invalid"],
    "NoComma": ["expected one of", "expected `,`"],
}


def messages(lines):
    """What rustc says of each line of a file."""
    with common.folder() as folder:
        path = pathlib.Path(folder) / "rows.rs"
        path.write_text("".join(line + "\n" for line in lines) + "fn main() {}\n")
        ran = common.rustc("--error-format", "short", "--emit", "metadata", "-A", "warnings",
                           "-o", f"{folder}/out", *OPTIONS, path)
    found = {}
    for line in ran.stderr.splitlines():
        if it := re.match(r".*rows\.rs:(\d+):\d+: (error.*)", line):
            found.setdefault(int(it[1]) - 1, []).append(it[2])
    return found


def rejected_if_held(number, attribute):
    """A line that rustc rejects if the attribute holds."""
    text = f'{attribute} compile_error!("held");'
    return f"mod m{number} {{ {text} }}" if attribute.startswith("#!") else text


def main():
    common.arguments(__doc__).parse_args()
    differ = 0
    found = messages([rejected_if_held(i, attribute) for i, (attribute, _) in enumerate(HOLD)])
    for i, (attribute, want) in enumerate(HOLD):
        if found.get(i, []) != (["error: held"] if want else []):
            differ += 1
            print(f"{attribute}: {want} in the row, rustc says {found.get(i)}")
    for attribute, _, fault in FAULTS:
        of_it = messages([f"{attribute} fn f() {{}}"]).get(0, [])
        if not any(word in message for word in MESSAGES[fault] for message in of_it):
            differ += 1
            print(f"{attribute}: {fault} in the row, rustc says {of_it}")
    print(f"{len(HOLD)} attributes that are in order, {len(FAULTS)} with faults")
    return common.finish(len(HOLD) + len(FAULTS) - differ, differ)


if __name__ == "__main__":
    sys.exit(main())
