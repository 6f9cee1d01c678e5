#!/usr/bin/env python3
"""Compares how long `expandm` reads a fragment with one that nests twice as deep: the ratio must
be below 2.4.

For each form the script makes two calls, and `expandm` expands both. The argument of the second
call nests the form twice as deep. The script does this within the depth that the parser accepts,
and once more beyond it, where the parser gives up. It counts instructions by valgrind's callgrind,
and subtracts the instructions of a file without nesting.

A parser may try two alternatives at each level, each to the end. Then it takes twice as long with
each level, and the ratio is far above 2.4.

The script prints each form's ratios, the greatest last. Then it prints how long the slowest of
the faulty arguments took: forms that end at a random token, or in which a random token is changed.
A form fails if a ratio is above the limit.
"""
import os
import random
import subprocess
import sys
import time

sys.path.insert(0, os.path.dirname(os.path.dirname(os.path.abspath(__file__))))
import common  # noqa: E402

DEPTHS, LIMIT, FAULTY = (16, 600), 2.4, 900

# kind of fragment, what opens each level, the middle, what closes each level
FORMS = [
    ("expr", "- ", "1", ""), ("expr", "!", "a", ""), ("expr", "*", "a", ""), ("expr", "&", "a", ""), ("expr", "&mut ", "a", ""),
    ("expr", "&raw const ", "a", ""), ("expr", "1 + ", "1", ""), ("expr", "a = ", "1", ""), ("expr", "a || ", "b", ""), ("expr", "", "a", "?"),
    ("expr", "", "a", ".b"), ("expr", "", "a", ".b()"), ("expr", "", "a", "[0]"), ("expr", "", "a", "(0)"), ("expr", "", "a", " as u8"),
    ("expr", "", "a", ".await"), ("expr", "|x| ", "x", ""), ("expr", "move |x| ", "x", ""), ("expr", "|| ", "x", ""), ("expr", "return ", "1", ""),
    ("expr", "break ", "1", ""), ("expr", "break 'a ", "1", ""), ("expr", "if a { } else ", "{ }", ""), ("expr", "if let A = a { } else ", "{ }", ""),
    ("expr", "if ", "a", " { }"), ("expr", "while ", "a", " { }"), ("expr", "match ", "a", " { }"), ("expr", "for x in ", "a", " { }"),
    ("expr", "..", "a", ""), ("expr", "#[a] ", "1", ""), ("expr", "A::<", "u8", ">"), ("expr", "<", "u8", " as T>::A"), ("expr", "a::", "b", ""),
    ("expr", "let A = ", "a", ""), ("expr", "a && let A = ", "a", ""), ("expr", "unsafe { } + ", "1", ""),
    ("ty", "&", "u8", ""), ("ty", "*const ", "u8", ""), ("ty", "&'a mut ", "u8", ""), ("ty", "A<", "u8", ">"), ("ty", "A<B = ", "u8", ">"),
    ("ty", "fn() -> ", "u8", ""), ("ty", "for<'a> fn() -> ", "u8", ""), ("ty", "<", "u8", " as T>::A"), ("ty", "dyn A<", "u8", "> + B"),
    ("ty", "impl Fn() -> ", "u8", ""), ("ty", "A::<", "u8", ">::B"),
    ("pat", "&", "a", ""), ("pat", "a @ ", "b", ""), ("pat", "a | ", "b", ""), ("pat", "A::<", "u8", ">"),
    ("path", "A<", "u8", ">"), ("path", "a::", "b", ""), ("stmt", "let a = ", "1", ""), ("stmt", "'a: ", "loop { }", ""),
    ("item", "#[a] ", "fn f() { }", ""), ("item", "type A = A<", "u8", ">;"), ("meta", "a::", "b", ""), ("vis", "", "pub", ""),
]


def file_of(kind, argument):
    return f"macro_rules! m {{ ($x:{kind}) => {{ 1 }}; ($($x:tt)*) => {{ 2 }} }}\nconst A: u8 = m!({argument});\n"


def instructions(program, room, text):
    common.write(f"{room}/a.rs", text)
    return common.instructions([program, f"{room}/a.rs"], statuses=(0, 1))


def nested(form, depth):
    kind, opens, middle, closes = form
    if opens.startswith("type "):
        return f"type A = {'A<' * depth}u8{'>' * depth};"
    return opens * depth + middle + closes * depth


def faulty(random_of):
    form = random_of.choice(FORMS)
    words = nested(form, random_of.randrange(2, 400)).split(" ")
    place = random_of.randrange(len(words))
    how = random_of.randrange(3)
    if how == 0:
        words = words[:place]
    elif how == 1:
        words[place] = random_of.choice(["<", ">", "=", "as", "|", "let", "::", "'a", "1", "#", "where", "for"])
    else:
        words[place:place] = nested(random_of.choice(FORMS), random_of.randrange(1, 50)).split(" ")
    return file_of(form[0], " ".join(words))


def slowest(program, room):
    random_of, worst = random.Random(31), 0.0
    for _ in range(FAULTY):
        common.write(f"{room}/a.rs", faulty(random_of))
        begun = time.time()
        run = subprocess.run([program, f"{room}/a.rs"], capture_output=True, timeout=20, check=False)
        worst = max(worst, time.time() - begun)
        if run.returncode not in (0, 1):
            with open(f"{room}/a.rs", encoding="utf-8") as it:
                sys.exit(f"status {run.returncode} on {it.read()}")
    return worst


def ratios_of(program, room, forms):
    """By ratio of instructions: the depth and the form."""
    ratios = []
    for form in forms:
        bare = instructions(program, room, file_of(form[0], nested(form, 0)))
        for depth in DEPTHS:
            once, twice = (
                instructions(program, room, file_of(form[0], nested(form, it))) - bare
                for it in (depth, 2 * depth))
            ratios.append((twice / max(once, 1), depth, form))
    return sorted(ratios, key=lambda it: it[0])


def main():
    parser = common.arguments(__doc__)
    parser.add_argument("program", metavar="EXPANDM", nargs="?", type=os.path.abspath,
                        help="the program expandm; if left out, this checkout's, without proof")
    parser.add_argument("--kind", help="try the forms of this kind of fragment alone")
    args = parser.parse_args()
    program = common.expandm(args.program)
    forms = [it for it in FORMS if args.kind in (None, it[0])]
    with common.folder() as room:
        ratios = ratios_of(program, room, forms)
        for ratio, depth, (kind, opens, middle, closes) in ratios:
            print(f"{ratio:.2f}  {depth:4} {kind:5} {opens}.. {middle} ..{closes}")
        worst = slowest(program, room)
    print(f"{len(forms)} forms, greatest ratio {ratios[-1][0]:.2f}; {FAULTY} faulty texts, "
          f"the slowest {worst:.2f} s")
    failed = {form for ratio, _, form in ratios if ratio > LIMIT}
    return common.finish(len(forms) - len(failed), len(failed))


if __name__ == "__main__":
    sys.exit(main())
