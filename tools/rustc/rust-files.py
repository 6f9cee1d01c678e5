#!/usr/bin/env python3
"""Compares the Rust lexer of `mbe_text` with rustc's, and with itself on what `RustPrinter`
writes.

A PATH is a file or a folder of Rust files, such as /usr/src/rustc-1.63.0 of Debian's package
rust-src. `lex_dialect` lexes each file in its edition. `RustPrinter` writes the trees, and
`lex_dialect` lexes the written text again. On the other side a proc macro
(tools/rustc/rust-files/judge.rs) parses each file by rustc's own lexer to a token stream, and
prints it. The script compares words, puncts and whether they are joint, literals and groups. It
prints a line for each difference.

The edition is the one of the file's line `// edition:YEAR`, else 2015 below a folder `test`, else
2021. Before it compares, the script changes both sides, or only rustc's side:

- A carriage return before a line feed is removed, and names are brought into Unicode's form C.
- A `#!` line is removed.
- The text of a doc comment is compared by its value. A token stream has it in quotes and escaped.
- If rustc's lexer finds a fault, there must be one here too. tools/rustc/rust-tokens.py compares
  which one, and where.

The program is tools/rustc/rust-files/mbe_rust_files, proved and built by `rt run`.
"""
import os
import random
import re
import sys
import unicodedata

sys.path.insert(0, os.path.dirname(os.path.dirname(os.path.abspath(__file__))))
import common  # noqa: E402

HERE = f"{common.TOOLS}/rustc/rust-files"
LIBRARIES = ["mbe_tt", "mbe_text"]
# A fault that rustc's lexer leaves to the parser to report, which a proc macro's call doesn't reach.
LATER = "fault\nlifetimes cannot start with a number"
ESCAPES = {"n": "\n", "r": "\r", "t": "\t", "0": "\0", "\\": "\\", "'": "'", '"': '"'}
PIECES = r"""r b c br cr ' " # \ \n \x41 \u{41} a k 0 1 8 e E . _ 0x 0b 0o / * ! é - + // /* */ /// /** //! r# crate 'a 'b' b' c" ( ) [ ] { }
< > = , ; : :: $ & | ^ % ~ @ ?""".split() + [" ", " ", "\n", "\r", "\t", "\ufeff", "\u0301", "\u200e", "\0"]


def texts_of(paths, seed, count):
    """Names of files, with their editions and texts."""
    for file in common.rust_files(paths):
        text = common.read_utf8(file)
        if text is not None:
            edition = common.edition_of_file(file, text)
            yield file, edition, text.replace("\r\n", "\n").removeprefix("\ufeff")
    random.seed(seed)
    for number in range(count):
        if number % 4:
            text = "".join(random.choice(PIECES) for _ in range(random.randint(1, 30)))
        else:
            text = random.randbytes(random.randint(1, 60)).decode("utf-8", "ignore")
        edition = random.choice(common.EDITIONS)
        yield f"random {number}", edition, text.replace("\r\n", "\n").removeprefix("\ufeff")


def without_shebang(text):
    if text.startswith("#!") and not re.match(r"#!(\s|//[^\n]*\n|/\*.*?\*/)*\[", text, re.S):
        return text[text.find("\n"):] if "\n" in text else ""
    return text


def lexed(program, folder, rows):
    """The tokens of each text, and the tokens of its printed trees."""
    lines = "".join(f"{edition}\t{folder}/{number}\n" for number, (_, edition, _) in enumerate(rows))
    run = common.run([program], binary=True, input=lines)
    if run.returncode != 0:
        sys.exit(f"status {run.returncode}: {run.stderr.decode()[-2000:]}")
    parts, at = [], 0
    while at < len(run.stdout):
        line = run.stdout.index(b"\n", at)
        end = line + 1 + int(run.stdout[at:line])
        parts.append(run.stdout[line + 1:end].decode())
        at = end
    return list(zip(parts[::3], parts[1::3], parts[2::3]))


def judged(folder, rows):
    """The tokens that rustc makes of each text."""
    judge, seen = f"{folder}/libjudge.so", {}
    for edition in common.EDITIONS:
        # A macro parses a text in the edition of the macro.
        words = ["--crate-type", "proc-macro", "-O", f"{HERE}/judge.rs", "-o", judge]
        common.rustc(*words, edition=edition, check=True)
        lines = {number: line for line, number in enumerate((n for n, row in enumerate(rows) if row[1] == edition), 1)}
        with open(f"{folder}/use.rs", "w", encoding="utf-8") as it:
            it.writelines(f"judge::judge! {{ \"{folder}/{number}.judge\" }}\n" for number in lines)
            it.write("fn main() {}\n")
        words = ["--extern", f"judge={judge}", "--emit=metadata", "-o", f"{folder}/o"]
        words += ["--error-format=short", "-Awarnings", f"{folder}/use.rs"]
        run = common.rustc(*words, edition=edition, cwd=folder)
        parts = re.split(r"^@@ (.*)\n", run.stderr, flags=re.M)
        for name, said in zip(parts[1::2], parts[2::2]):
            number = int(os.path.basename(name).removesuffix(".judge"))
            with open(f"{name}.rustc", encoding="utf-8", newline="") as it:
                seen[number] = it.read()
            # rustc's reports on any text, which it writes at its end, follow the last text.
            if re.search(rf"^\S*use\.rs:{lines[number]}:\d+: error", said, re.M):
                seen[number] = "fault\n" + said.split("\n")[0]
    return seen


def value_of(literal):
    if literal.startswith("r"):
        return literal.lstrip("r").strip("#")[1:-1]
    return re.sub(r"\\(u\{([0-9a-fA-F]+)\}|.)", lambda m: chr(int(m.group(2), 16)) if m.group(2) else ESCAPES.get(m.group(1), m.group(0)), literal[1:-1])


def plain(tokens):
    """The tokens with each doc comment's text as its value, the `#` of an inner doc comment joint, and names in form
    C."""
    tokens = tokens.replace("#\x02!\x02[\x02doc\x02=\x02", "#\x01!\x02[\x02doc\x02=\x02")
    return unicodedata.normalize("NFC", re.sub(
        "doc\x02=\x02((?:r#*)?\"[^\x02]*)\x02\\]", lambda m: f"doc\x02=\x02{value_of(m.group(1))}\x02]", tokens, flags=re.S))


def around(one, other):
    """Where two texts differ."""
    at = next((i for i, (a, b) in enumerate(zip(one, other)) if a != b), min(len(one), len(other)))
    return " | ".join(re.sub("[\x01\x02]", lambda m: "·" if m.group(0) == "\x01" else " ", it[max(0, at - 30):at + 30]).replace("\n", "\\n") for it in (one, other))


def asked():
    parser = common.arguments(__doc__)
    parser.add_argument("paths", metavar="PATH", nargs="*")
    parser.add_argument("--program", metavar="FILE", help="take the built program FILE")
    parser.add_argument("--random", metavar=("SEED", "COUNT"), nargs=2, type=int, default=(0, 0),
                        help="compare COUNT texts of random bytes and pieces of tokens too")
    return parser.parse_args()


def main():
    args = asked()
    rows = list(texts_of(args.paths, *args.random))
    counts = {"same": 0, "fault": 0, "rustc": 0, "written": 0}
    with common.folder() as folder:
        for number, (_, _, text) in enumerate(rows):
            common.write(f"{folder}/{number}", text)
            common.write(f"{folder}/{number}.judge", without_shebang(text))
        program = args.program or common.build_proved(folder, f"{HERE}/mbe_rust_files", LIBRARIES)
        ours = lexed(program, folder, rows)
        theirs = judged(folder, rows)
    for number, ((file, edition, text), (tokens, again, _)) in enumerate(zip(rows, ours)):
        want = theirs[number]
        shown = repr(text) if file.startswith("random") else file
        if tokens.startswith(LATER) or (tokens.startswith("fault") and want.startswith("fault")):
            counts["fault"] += 1
        elif tokens != want and plain(tokens) != plain(want):
            counts["rustc"] += 1
            print(f"{shown}, {edition}: {around(plain(tokens), plain(want))}")
        else:
            counts["same"] += 1
        if tokens.startswith("ok") and again != tokens:
            counts["written"] += 1
            print(f"{shown}, {edition}, written: {around(tokens, again)}")
    print(f"{len(rows)} texts, {sum(len(text.encode()) for _, _, text in rows)} bytes: {counts['same']} have rustc's tokens, {counts['fault']} are faults here and there, "
          f"{counts['rustc']} differ; {counts['written']} are written otherwise")
    failed = counts["rustc"] + counts["written"]
    return common.finish(counts["same"] + counts["fault"], failed)


if __name__ == "__main__":
    sys.exit(main())
