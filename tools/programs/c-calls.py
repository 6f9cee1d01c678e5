#!/usr/bin/env python3
"""Compares the C interface, called from Python, with the program `mbex` on random definitions and
arguments, byte for byte.

The library is MBE_LIB, the `libmbe_c.so` that bindings/library.sh makes. MBEX is the built
program. The script makes COUNT calls from SEED. It prints the first three calls that differ.
"""
import collections
import os
import random
import sys
from concurrent.futures import ThreadPoolExecutor

sys.path.insert(0, os.path.dirname(os.path.dirname(os.path.abspath(__file__))))
import common  # noqa: E402

sys.path.insert(0, f"{common.TOP}/bindings/python")

FITS = {
    "ident": ["a", "r#fn", "b"], "tt": ["a", "+", "(b 1)"], "expr": ["1 + 2", "a", "f(1)"], "ty": ["a", "u8"], "literal": ["1u8", "\"s\""],
    "lifetime": ["'x"], "vis": ["pub", ""], "path": ["a::b"], "pat": ["a", "_"], "stmt": ["a", "1"], "block": ["{a}"], "item": ["fn a() {}"],
    "meta": ["a"],
}
KINDS = list(FITS)
WORDS = ["a", "b", "if", "r#fn", "1", "1u8", "\"s\"", "'c'", "'x", "+", "-", "..=", ",", ";", "::", "=>", "$", "é", "pub", "_", "true", "<", ">", "br\"x\""]
PLAIN = ["a", "b", "if", "1", "\"s\"", "+", "-", ",", ";", "::", "=>", "true", "é"]
EDITIONS = [2015, 2018, 2021, 2024]


def trees(at, depth=0):
    words = []
    for _ in range(at.randrange(0, 5)):
        if depth < 3 and at.random() < 0.2:
            sides = at.choice(["()", "[]", "{}"])
            words.append(sides[0] + trees(at, depth + 1) + sides[1])
        else:
            words.append(at.choice(WORDS))
    return " ".join(words)


def pattern(at, names, depth=0):
    """A pattern, and an argument that may fit it."""
    words, fits = [], []
    for _ in range(at.randrange(0, 4)):
        chance = at.random()
        if chance < 0.4:
            name, kind = f"x{len(names)}", at.choice(KINDS)
            names.append((name, depth))
            words.append(f"${name}:{kind}")
            fits.append(at.choice(FITS[kind]))
        elif chance < 0.6 and depth < 2:
            inner, once = pattern(at, names, depth + 1)
            separator, repeat = at.choice(["", ",", ";"]), at.choice("*+?")
            words.append("$(" + inner + ")" + ("" if repeat == "?" else separator) + repeat)
            fits.append((" " + separator + " ").join([once] * at.randrange(0, 2 if repeat == "?" else 4)))
        else:
            words.append(at.choice(PLAIN))
            fits.append(words[-1])
    return " ".join(words), " ".join(fits)


def template(at, names):
    words = []
    for _ in range(at.randrange(0, 5)):
        if names and at.random() < 0.6:
            name, depth = at.choice(names)
            inner = "$" + name
            for _ in range(depth):
                inner = "$(" + inner + ")" + at.choice(["", ","]) + "*"
            words.append(inner)
        else:
            words.append(at.choice(WORDS))
    return " ".join(words)


def call(at):
    """A definition and an argument."""
    if at.random() < 0.1:
        return trees(at), trees(at)
    rules, arguments = [], [trees(at)]
    for _ in range(at.randrange(1, 4)):
        names = []
        words, fits = pattern(at, names)
        arguments.append(fits)
        rules.append(f"({words}) => {{{template(at, names)}}}")
    return "; ".join(rules), at.choice(arguments)


def by_c(mbe, text, argument, edition):
    """The output and the status of mbex, from the calls."""
    try:
        site = mbe.Span(1, 0, 0, len(argument.encode()), 0)
        found = mbe.Macro(text, edition, check=False).expand(argument, form="lines", call_site=site)
    except mbe.Error as wrong:
        return {"refused": 2, "no tokens": 4}.get(wrong.status, 9), ""
    head = ""
    if found.fault:
        message, span = found.fault
        head = f"error: {message} at {span.file}@{span.start}..{span.end}\n"
    head += "arm none\n" if found.rule is None else f"arm {found.rule}\n"
    return int(found.fault is not None), head + found.trees.text.decode()


def by_mbex(program, folder, edition):
    return common.run([program, f"{folder}/d", f"{folder}/a", edition])


def run(job):
    mbe, program, number, seed = job
    at = random.Random(seed * 1_000_003 + number)
    (text, argument), edition = call(at), at.choice(EDITIONS)
    with common.folder() as folder:
        common.write(f"{folder}/d", text)
        common.write(f"{folder}/a", argument)
        ran = by_mbex(program, folder, edition)
        status, output = by_c(mbe, text, argument, edition)
        same = (ran.returncode, ran.stdout) == (status, output)
        # The definition is refused, and the argument can't be lexed: C reports the first, and mbex the second.
        if (ran.returncode, status) == (4, 2):
            common.write(f"{folder}/a", "")
            same = by_mbex(program, folder, edition).returncode == 2
    return ran.returncode, same, (text, argument, edition, ran.stdout, output)


def main():
    parser = common.arguments(__doc__)
    parser.add_argument("mbex", metavar="MBEX", type=os.path.abspath)
    parser.add_argument("count", metavar="COUNT", type=int)
    parser.add_argument("seed", metavar="SEED", type=int)
    args = parser.parse_args()
    if "MBE_LIB" not in os.environ:
        sys.exit("set MBE_LIB to the path of libmbe_c.so")
    # (the module loads the library at once, so `--help` has to come first)
    mbe = __import__("mbe")
    statuses, differ = collections.Counter(), 0
    jobs = ((mbe, args.mbex, number, args.seed) for number in range(args.count))
    with ThreadPoolExecutor(int(os.environ.get("JOBS", "2"))) as pool:
        for status, same, shown in pool.map(run, jobs, chunksize=50):
            statuses[status] += 1
            if not same:
                differ += 1
                if differ <= 3:
                    print("differ:", *map(repr, shown))
    print(f"{args.count} runs, by status {dict(sorted(statuses.items()))}: {differ} differ")
    return common.finish(args.count - differ, differ)


if __name__ == "__main__":
    sys.exit(main())
