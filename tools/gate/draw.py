#!/usr/bin/env python3
"""Draws public functions with a contract from the crates for texts and files, and names the mutants
of tools/edits that change each of them.

The draw depends on the seed alone, and on the functions that there are. A function without a mutant
is a row without names, and fails. `tools/gate/edits.py CRATE` tries the mutants.

Functions without a contract aren't drawn: docs/PROVED.md lists them with their tests.
"""
import glob
import os
import random
import re
import sys

sys.path.insert(0, os.path.dirname(os.path.dirname(os.path.abspath(__file__))))
import common  # noqa: E402
from common import TOP  # noqa: E402

CRATES = (
    "mbe_text", "mbe_grammar", "mbe_rewriter", "mbe_cfg", "mbe_cargo", "mbe_diagnostics",
    "mbe_markup", "mbe_session", "mbe_reports", "mbe_files", "expandm", "mbe_program",
)
FUNCTION = re.compile(r"^( *)pub (?:const )?fn (\w+)")


def functions_of(path):
    """The public functions of a file that have a clause `ensures`: name, line, and text."""
    lines = common.read(path).split("\n")
    for number, line in enumerate(lines):
        it = FUNCTION.match(line)
        if not it:
            continue
        # a function in one line has no line of its own for its closing brace
        ends = (at for at in range(number, len(lines)) if lines[at] == it[1] + "}" or at > number and FUNCTION.match(lines[at]))
        end = number if line.endswith("}") else next(ends, number)
        text = "\n".join(lines[number:end + 1])
        if re.search(r"^ *ensures\b", text, re.M):
            yield it[2], number + 1, text


def functions(crates):
    """All such functions of the crates: crate, file of the crate, name, line, and text."""
    for crate in crates:
        for path in sorted(glob.glob(f"{TOP}/crates/{crate}/src/**/*.rt", recursive=True)):
            file = os.path.relpath(path, f"{TOP}/crates/{crate}")
            if file == "src/laws.rt":
                continue  # laws have no body to change
            yield from ((crate, file, *it) for it in functions_of(path))


def changes_of(crate):
    """The texts that the mutants of a crate replace: name of the mutant, file, and text."""
    for path in sorted(glob.glob(f"{TOP}/tools/edits/{crate}/*.edit")):
        file = ""
        for line in common.read(path).split("\n"):
            key, _, value = line.partition(": ")
            if key == "file":
                file = value.strip()
            elif key == "old":
                yield os.path.basename(path)[:-5], file, value.strip()


def mutants_of(crate, file, text):
    return sorted({name for name, where, old in changes_of(crate) if where == file and old in text})


def main():
    parser = common.arguments(__doc__)
    parser.add_argument("--seed", type=int, default=1, help="the number that the draw depends on (default: 1)")
    parser.add_argument("--count", type=int, default=40, help="how many functions are drawn (default: 40)")
    parser.add_argument("crates", metavar="CRATE", nargs="*", help="crates to draw from; if left out, all for files")
    args = parser.parse_args()
    known = list(functions(args.crates or CRATES))
    drawn = sorted(random.Random(args.seed).sample(known, min(args.count, len(known))))
    rows = [(f"{crate}/{file}:{line}", name, " ".join(mutants_of(crate, file, text)))
            for crate, file, name, line, text in drawn]
    common.print_table(("Place", "Function", "Mutants"), rows)
    lacking = sum(not names for _, _, names in rows)
    return common.finish(len(rows) - lacking, lacking)


if __name__ == "__main__":
    sys.exit(main())
