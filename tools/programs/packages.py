#!/usr/bin/env python3
"""Expands each Rust file of folders by itself, and compares `expandm` with what must hold of any
file.

A FOLDER is one of packages, such as /usr/share/cargo/registry of Debian's librust-*-dev. A file
passes if all of this holds:

- `expandm` ends with status 0 or 1, within a minute.
- A file without the word `macro` and without an error comes out unchanged, byte for byte.
- If the file has no error, its expansion has none: `expandm` runs on it again.

The script prints a line for each file that fails. Then it prints numbers: files, calls that were
expanded, and errors by their message.
"""
import os
import re
import subprocess
import sys
from collections import Counter

sys.path.insert(0, os.path.dirname(os.path.dirname(os.path.abspath(__file__))))
import common  # noqa: E402

STEP = re.compile(r": note: to `")
ERROR = re.compile(r":\d+:\d+: error: (.*)")


def expanded(program, words, text=None):
    """The status of a run, or None after a minute; its output; and what it reports."""
    try:
        ran = common.run([program, *words], binary=True, input=text, timeout=60)
    except subprocess.TimeoutExpired:
        return None, b"", ""
    return ran.returncode, ran.stdout, ran.stderr.decode(errors="replace")


def fault(program, text, status, out):
    """What is wrong with the run on a file, or None."""
    if status not in (0, 1):
        return "no end within a minute" if status is None else f"status {status}"
    if status == 0 and b"macro" not in text and out != text:
        return "changed"
    if status == 0 and out != text and expanded(program, ["-"], out)[0] != 0:
        return "the output has an error"
    return None


def main():
    parser = common.arguments(__doc__)
    parser.add_argument("program", metavar="EXPANDM", type=os.path.abspath)
    parser.add_argument("folders", metavar="FOLDER", nargs="+")
    args = parser.parse_args()
    seen, errors, failed = Counter(), Counter(), 0
    for path in common.rust_files(args.folders):
        with open(path, "rb") as it:
            text = it.read()
        status, out, reported = expanded(args.program, ["--trace", "--no-modules", path])
        why = fault(args.program, text, status, out)
        if why:
            failed += 1
            print(f"{path}: {why}")
        seen.update(files=1, expanded=len(STEP.findall(reported)))
        seen.update(changed=out != text, failed=status != 0)
        errors.update(re.sub(r"`[^`]*`", "..", it) for it in ERROR.findall(reported))
    print(f"{seen['files']} files, {seen['changed']} with calls that were expanded, "
          f"{seen['expanded']} in all; {seen['failed']} with errors")
    for message, count in errors.most_common():
        print(f"{count} {message}")
    return common.finish(seen["files"] - failed, failed)


if __name__ == "__main__":
    sys.exit(main())
