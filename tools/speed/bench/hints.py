#!/usr/bin/env python3
"""Adds hints on inlining to the LLVM text of a program, and overwrites it. The module of `rt try`
has no hints, and the module of the gate has them.

`#[inline(always)]` becomes `alwaysinline`, `#[inline]` `inlinehint`, and `#[inline(never)]`
`noinline`, at all instances of the function. This script works alone, without tools/common.py,
since it runs in copies of the repository too.
"""
import argparse
import glob
import os
import re

HINTS = {"always": "alwaysinline", "never": "noinline", None: "inlinehint"}
HINT = re.compile(r"\s*#\[inline(?:\((always|never)\))?\]")
FUNCTION = re.compile(r"\s*(?:pub(?:\(\w+\))? )?fn (\w+)")
IMPL = re.compile(r"impl(?:<.*?>)? (?:(\w+)(?:<.*>)? for )?(\w+)(?:<.*>)? \{")
DEFINITION = re.compile(r'^(define .*?@"?([\w:]+?)(?:::<[^"]*)?"?\(.*\)) (.*\{)$')


def hints_of(crates):
    """The attribute of each function that has a hint, by its path without instances."""
    found = {}
    for path in glob.glob(f"{crates}/*/src/**/*.rt", recursive=True):
        crate, _, inside = os.path.relpath(path, crates).split(os.sep, 2)
        modules = inside[: -len(".rt")].split(os.sep)
        prefix = [crate] + ([] if modules in (["lib"], ["main"]) else modules)
        of, hint = [], None
        for line in open(path, encoding="utf-8"):
            if line.startswith("impl"):
                it = IMPL.match(line)
                of = [it[2] + (it[1] or "")] if it else []
            elif line.startswith("}"):
                of = []
            at, function = HINT.match(line), FUNCTION.match(line)
            if at:
                hint = HINTS[at[1]]
            elif function:
                if hint:
                    found["::".join([*prefix, *of, function[1]])] = hint
                hint = None
    return found


def main():
    parser = argparse.ArgumentParser(
        description=__doc__, formatter_class=argparse.RawDescriptionHelpFormatter)
    parser.add_argument("program", metavar="PROGRAM.ll")
    parser.add_argument("folders", metavar="CRATES", nargs="+",
                        help="a folder of crates, of a checkout or of the kit")
    args = parser.parse_args()
    hints = {name: hint for folder in args.folders for name, hint in hints_of(folder).items()}
    lines = []
    for line in open(args.program, encoding="utf-8"):
        it = DEFINITION.match(line) if line.startswith("define") else None
        if it and it[2] in hints:
            line = f"{it[1]} {hints[it[2]]} {it[3]}\n"
        lines.append(line)
    with open(args.program, "w", encoding="utf-8") as it:
        it.writelines(lines)


if __name__ == "__main__":
    main()
