#!/usr/bin/env python3
"""Compares the table of Rust's rules in `mbe_grammar` with rustc on whole files: each file must
be items to its end.

A PATH is a file or a folder of Rust files, such as /usr/src/rustc-1.63.0 of Debian's package
rust-src. The grammar crates/mbe_grammar/rust.peg has a group for a block or a parameter list, and
doesn't look into it. The grammar tools/rustc/rust-src/inside.peg says what such a group holds:
statements, parameters and so on. Nothing looks into macro calls and definitions.

The script prints each file that the table doesn't read whole. With --judge rustc parses these files
too (`rustc -Zparse-crate-root-only`). Then a file fails only if rustc parses it, and it isn't in
`KNOWN`.

The edition is the one of the file's line `// edition:YEAR`, else 2015 below a folder `test`, else
2021; `compile-flags` may have it too.

The program is tools/rustc/rust-src/mbe_rust_src, proved and built by `rt run`. The script divides
each text into tokens first, and rewrites those that the sample lexer of `mbe_text` doesn't have:

- A literal becomes `0`, or `0.` if it ends with a point.
- A comment becomes a blank, even one of documentation.
- A shebang and a byte order mark are removed.

So the trees keep their shape, and each text is on one line.
"""
import os
import re
import sys
from concurrent.futures import ThreadPoolExecutor

sys.path.insert(0, os.path.dirname(os.path.dirname(os.path.abspath(__file__))))
import common  # noqa: E402

HERE = f"{common.TOOLS}/rustc/rust-src"
# Files of Debian's package that rustc's parser reads and the table doesn't, and why.
KNOWN = {
    "super-fast-paren-parsing.rs": "deeper than the table's rules may be",
    "issue-93775.rs": "deeper than the table's rules may be",
}
TOKEN = re.compile(r'''
    (?P<blank>[\s\u200e\u200f]+|//[^\n]*)
  | (?P<comment>/\*)
  | (?P<raw>(?:b|c)?r(?P<hashes>\#*)".*?"(?P=hashes)(?:[^\W\d]\w*)?)
  | (?P<text>(?:b|c)?"(?:[^"\\]|\\.)*"(?:[^\W\d]\w*)?)
  | (?P<char>b?'(?:\\(?:u\{[^}]*\}|x..|.)|[^\\'])'(?:[^\W\d]\w*)?)
  | (?P<word>(?:r\#)?[^\W\d]\w*)
  | (?P<number>0[xob]\w+|\d[\d_]*(?:\.(?![.\w])|\.\d[\d_]*)?(?:[eE][+-]?[\d_]*\d[\d_]*)?\w*)
  | (?P<sign>.)
''', re.X | re.S)


def flattened(text):
    """The text on one line, with literals rewritten."""
    text = text.removeprefix("\ufeff")
    if text.startswith("#!") and not re.match(r"#!\s*(//[^\n]*\s*|/\*.*?\*/\s*)*\[", text, re.S):
        text = text[text.find("\n"):] if "\n" in text else ""
    out, at = [], 0
    while at < len(text):
        token = TOKEN.match(text, at)
        at = token.end()
        kind = token.lastgroup if token.lastgroup != "hashes" else "raw"
        if kind == "comment":
            at = end_of_comment(text, at)
        if kind in ("blank", "comment"):
            out.append(" ")
        elif kind in ("word", "sign"):
            out.append(token.group(0))
        elif kind == "number" and token.group(0).endswith("."):
            out.append(" 0. ")
        else:
            out.append(" 0 ")
    return "".join(out)


def end_of_comment(text, at):
    depth = 1
    for mark in re.finditer(r"/\*|\*/", text[at:]):
        depth += 1 if mark.group(0) == "/*" else -1
        if depth == 0:
            return at + mark.end()
    return len(text)


def build(folder):
    """The program that reads files, with a table of both grammars."""

    def write_table(made):
        files = [f"{common.TOP}/crates/mbe_grammar/rust.peg", f"{HERE}/inside.peg"]
        rust_rules = [sys.executable, f"{common.TOOLS}/rust-rules"]
        common.run([*rust_rules, *files, f"{made}/src"], check=True)

    libraries = ["mbe_tt", "mbe_text", "mbe_grammar"]
    return common.build_proved(folder, f"{HERE}/mbe_rust_src", libraries, write_table)


def read(program, texts):
    """The numbers of the texts that aren't read whole."""
    lines = "".join(f"{edition}\t{flat}\n" for edition, flat in texts)
    run = common.run([program], input=lines)
    if run.returncode != 0 or not run.stdout.endswith(f"read {len(texts)}\n"):
        sys.exit(run.stdout[-2000:] + run.stderr[-2000:])
    return [int(line) for line in run.stdout.split("\n")[:-2]]


def is_parsed(file, edition):
    ran = common.rustc("-Zparse-crate-root-only", file, edition=edition, env=common.NIGHTLY)
    return ran.returncode == 0


def main():
    parser = common.arguments(__doc__)
    parser.add_argument("paths", metavar="PATH", nargs="+")
    parser.add_argument("--judge", action="store_true",
                        help="ask rustc about the files that the table doesn't read")
    parser.add_argument("--built", metavar="FOLDER", type=os.path.abspath,
                        help="keep the built program in FOLDER for the next time")
    args = parser.parse_args()
    files, texts = [], []
    for file in common.rust_files(args.paths):
        text = common.read_utf8(file)
        if text is not None:
            files.append(file)
            texts.append((common.edition_of_file(file, text), flattened(text)))
    with common.folder(args.built) as folder:
        missed = read(build(folder), texts)
    refused = set()
    if args.judge:
        with ThreadPoolExecutor(2) as pool:
            parsed = pool.map(lambda number: is_parsed(files[number], texts[number][0]), missed)
            refused = {number for number, ok in zip(missed, parsed) if not ok}
    known = {number for number in missed if os.path.basename(files[number]) in KNOWN}
    left = [number for number in missed if number not in refused | known]
    for number in left:
        print(f"{files[number]}, edition {texts[number][0]}")
    print(f"{len(files)} files, {sum(len(flat) for _, flat in texts)} bytes as they are read; {len(files) - len(missed)} are items to the end, "
          f"{len(refused)} are refused by rustc too, {len(known - refused)} are known, {len(left)} are left")
    return common.finish(len(files) - len(left), len(left))


if __name__ == "__main__":
    sys.exit(main())
