#!/usr/bin/env python3
"""Lists the definitions and lemmas of specs/ and proofs/ that nothing uses.

A name counts if a file of a crate's specs/ or proofs/ defines it; constructors and fields don't
count. The name is used if its word is in any line of the crates' .antt and .rt files that isn't
the definition itself. A law or an example of src/ uses what it names. An import alone is no use.
"""
import glob
import os
import re
import sys
from collections import Counter

sys.path.insert(0, os.path.dirname(os.path.dirname(os.path.abspath(__file__))))
import common  # noqa: E402
from common import TOP  # noqa: E402

WORD = re.compile(r"[^\W\d][\w'-]*|◌[^\s:]*◌")
NAMED = re.compile(r"(\s*)(?:(?:abbrev|unfoldable|opaque) )*(?:pub )?(?:(?:abbrev|unfoldable|data|record) )*(?:pub )?([^\W\d][\w'-]*) :(?= |$)")
PLAIN = re.compile(r"(\s*)(?:abbrev )?(?:pub )?(?:data|record) ([\w'-]+)\b")


def lines_of(file):
    return common.read(file).split("\n")


def without_comment(line, file):
    return re.sub(r"--.*" if file.endswith(".antt") else r"//.*", "", line)


def is_import(line):
    return bool(re.match(r"\s*(pub )?(ghost )?use ", line))


def definitions(file):
    """The names that a file defines, with their lines: from the first that names it to before the next definition of its depth."""
    found, lines = [], lines_of(file)
    within = None
    for n, full in enumerate(lines):
        line = without_comment(full, file)
        named = PLAIN.match(line) or NAMED.match(line)
        if within is not None and line.strip() and len(line) - len(line.lstrip()) <= within:
            within = None
        if not named or within is not None:
            continue
        if PLAIN.match(line):
            within = len(named[1])
        if not is_import(line) and named[2] not in ("module", "mutual"):
            found.append((named[2], n))
    return found


def own_lines(lines, n, name):
    """How many lines of a definition begin with its name: the one that gives its type, and those of its clauses, which are indented alike."""
    depth = len(lines[n]) - len(lines[n].lstrip())
    own = re.compile(rf" {{{depth}}}(?:(?:abbrev|pub|unfoldable|opaque|data|record) )*{re.escape(name)}(?= |$)")
    count = 0
    for it in lines[n:]:
        if own.match(it):
            count += 1
        elif it.strip() and len(it) - len(it.lstrip()) <= depth and not it.strip().startswith("unfolding "):
            break
    return count


def main():
    parser = common.arguments(__doc__)
    parser.add_argument("crates", metavar="CRATE", nargs="*", help="look at these crates alone")
    crates = parser.parse_args().crates or sorted(os.listdir(f"{TOP}/crates"))
    files = [f for end in ("specs/**/*.antt", "proofs/**/*.antt", "src/**/*.rt") for f in glob.glob(f"{TOP}/crates/*/{end}", recursive=True)]
    files = [f for f in files if "/out/" not in f]
    used, own = Counter(), {}
    for file in files:
        for line in map(lambda it: without_comment(it, file), lines_of(file)):
            if not is_import(line):
                used.update(set(WORD.findall(line.replace(".", " "))))
    count, left = 0, 0
    for file in sorted(files):
        crate = os.path.relpath(file, f"{TOP}/crates").split("/")[0]
        if crate not in crates or not file.endswith(".antt") or os.path.basename(file) in ("Answers.antt", "Invariants.antt", "Proof.antt", "Lib.antt"):
            continue
        lines = [without_comment(it, file) for it in lines_of(file)]
        for name, n in definitions(file):
            count += 1
            mine = own_lines(lines, n, name)
            if used[name] <= mine:
                print(f"{os.path.relpath(file, TOP)}:{n + 1}: {name}")
                left += 1
    return common.finish(count - left, left)


if __name__ == "__main__":
    sys.exit(main())
