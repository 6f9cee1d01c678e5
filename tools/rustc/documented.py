#!/usr/bin/env python3
"""Compares docs/MACROS.md with rustc: the calls on which the page says that rustc differs from
`mbe`.

The script compiles each row in edition 2021. If rustc accepts the row, the script runs the
program. It prints a line for each row where rustc says something else than the row has. The tests
of the same calls on `mbex` are in tests/mbex/documented.py.
"""
import os
import sys

sys.path.insert(0, os.path.dirname(os.path.dirname(os.path.abspath(__file__))))
import common  # noqa: E402

# Rules, an argument, and what rustc says: the output of the program, or the error's first line.
EACH = '($($t:tt)*) => { concat!($("[", stringify!($t), "]"),*) }'
ROWS = [
    ("($($l:lifetime)? 'a) => { \"X\" }", "'b 'a", "X"),
    ('(1) => { "X" }', '"1"', "error: no rules expected `\"1\"`"),
    ('(foo) => { "X" }', "r#foo", "error: no rules expected `r#foo`"),
    ("($($a:ident)*; $($b:ident)*) => { stringify!($($a $b)*) }", "x y; z",
     "error: meta-variable `a` repeats 2 times, but `b` repeats 1 time"),
    ('($e:expr) => { "X" }; (1 +) => { "Y" }', "1 +",
     "error: expected expression, found end of macro arguments"),
    ("($t:ty $i:ident) => { stringify!($i) }", "u8 x",
     "error: `$t:ty` is followed by `$i:ident`, which is not allowed for `ty` fragments"),
    ("($x:ident $x:ident) => { stringify!($x) }", "a b", "error: duplicate matcher binding"),
    ('($x:foo) => { "X" }; (a) => { "Y" }', "a", "error: invalid fragment specifier `foo`"),
    ("($($x:ident)*) => { each!($(&$x)&*) }", "a b", "[&][a][&][&][b]"),
]


def answer(folder, rules, argument):
    """What the program of a row prints, or the first error of rustc."""
    source = f"{folder}/call.rs"
    common.write(source, f"macro_rules! each {{ {EACH} }}\nmacro_rules! m {{ {rules} }}\n"
                         f'fn main() {{ println!("{{}}", m!({argument})); }}\n')
    built = common.rustc("-A", "warnings", "-o", f"{folder}/call", source)
    if built.returncode != 0:
        return common.first_error(built.stderr)
    return common.run([f"{folder}/call"], check=True).stdout.strip()


def main():
    common.arguments(__doc__).parse_args()
    differ = 0
    with common.folder() as folder:
        for rules, argument, want in ROWS:
            got = answer(folder, rules, argument)
            if got != want and not got.startswith(want):
                differ += 1
                print(f"{rules} on {argument}: rustc says {got}, wanted {want}")
    print(f"{len(ROWS)} rows, {differ} differ")
    return common.finish(len(ROWS) - differ, differ)


if __name__ == "__main__":
    sys.exit(main())
