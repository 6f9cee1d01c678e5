#!/usr/bin/env python3
"""Prints how many instructions a rule takes that fails at its first token, in a call that matches
the last of many rules.

The script counts the instructions of a call that matches the last rule, and subtracts those of a
call that matches the first. It divides the difference by the number of rules between. MBEX is a
proved program, or the program without proof that unproved.sh makes.
"""
import os
import sys

sys.path.insert(0, os.path.dirname(os.path.dirname(os.path.dirname(os.path.abspath(__file__)))))
import common  # noqa: E402

WORDS = " ".join(f"t{i}" for i in range(999))
VARIABLES = " ".join(f"$v{i}:tt" for i in range(250))
SOME_WORDS = " ".join(f"t{i}" for i in range(250))
# What it is, the number of rules, a rule's pattern after its word, its template, and an argument after its word.
RULES = [
    ("a word and `$x:ident = $y:tt`", 10_000, "$x:ident = $y:tt", "a $x b $y", "p = q"),
    ("a word and repetitions", 10_000, "$( $x:ident = $y:tt ),* $(;)?", "$( $x $y )*", "p = q, r = s;"),
    ("a word and 999 other words", 500, WORDS, "done", WORDS),
    ("a word and 250 variables", 500, VARIABLES, "done", SOME_WORDS),
]


def instructions(program, definition, argument):
    with common.folder() as folder:
        common.write(f"{folder}/def", definition)
        common.write(f"{folder}/arg", argument)
        return common.instructions([program, f"{folder}/def", f"{folder}/arg"], statuses=[0])


def main():
    parser = common.arguments(__doc__)
    parser.add_argument("program", metavar="MBEX", type=os.path.abspath)
    program = parser.parse_args().program
    for what, count, pattern, template, argument in RULES:
        definition = "\n".join(f"(w{i} {pattern}) => {{ {template} }};" for i in range(count))
        last, first = (instructions(program, definition, f"w{i} {argument}") for i in (count - 1, 0))
        print(f"{count:6} of {what}: {(last - first) / (count - 1):.0f}", flush=True)


if __name__ == "__main__":
    main()
