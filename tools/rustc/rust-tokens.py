#!/usr/bin/env python3
"""Compares the rows of bindings/python/tests/random_tokens.py with rustc, or prints new rows: the
tokens of random texts.

With --check the script asks rustc again about each row, and prints each row that differs. With
SEED and COUNT it prints a new file instead:

    python3 tools/rustc/rust-tokens.py SEED COUNT > bindings/python/tests/random_tokens.py

A row is a text and its tokens without white space, or the first fault and its byte: rustc's
message in the words of `LexFaultKind`. A text gets no row if it begins with `#!`, or has a carriage
return before a line feed. For such a text rustc looks for tokens in a changed text.
"""
import json
import os
import random
import re
import sys
from concurrent.futures import ThreadPoolExecutor

sys.path.insert(0, os.path.dirname(os.path.dirname(os.path.abspath(__file__))))
import common  # noqa: E402

PARTS = r"""r b c br cr ' " ' " # # \ \n \x41 \x \x8f \u{41} \u{d800} \0 \q a k 0 1 8 e E . _ 0x 0b 0o / * ! é - + // /* */ /// /** //! r# crate
u8 'a 'b' b' c" """.split() + [" ", " ", "\n", "\r", "\t"]

NAME = "tools/rustc/rust-tokens.py"
EDITIONS = ["2018", "2021", "2024"]

# Texts of rustc, and those of `LexFaultKind` where they differ.
MESSAGES = {
    "unterminated double quote": "unterminated double quote string",
    "unterminated C string": "unterminated double quote string",
    "unterminated raw string": None,
    "unterminated character literal": None,
    "unterminated byte constant": None,
    "empty character literal": None,
    "literal may only contain one codepoint": "character literal may only contain one codepoint",
    "constant must be escaped": "character constant must be escaped",
    "bare CR not allowed": None,
    "non-ASCII character in": "non-ASCII character in byte literal",
    "null characters in C string literals are not supported": None,
    "found invalid character; only `#` is allowed in raw string delimitation": None,
    "invalid string literal": None,
    "unknown character escape": None,
    "unknown byte escape": "unknown character escape",
    "numeric character escape is too short": None,
    "invalid character in numeric character escape": None,
    "out of range hex escape": None,
    "incorrect unicode escape sequence": None,
    "invalid start of unicode escape": "invalid start of unicode escape: `_`",
    "invalid character in unicode escape": None,
    "empty unicode escape": None,
    "unterminated unicode escape": None,
    "overlong unicode escape": None,
    "invalid unicode character escape": None,
    "unicode escape in byte string": None,
    "unterminated block": "unterminated block comment",
    "no valid digits found for number": None,
    "invalid digit for a base": "invalid digit for a literal of this base",
    "expected at least one digit in exponent": None,
    "float literal is not supported": "float literal of this base is not supported",
    "underscore literal suffix is not allowed": None,
    "prefix `": "prefix is unknown",
    "cannot be a raw": "cannot be a raw identifier",
    "lifetimes cannot start with a number": None,
    "reserved multi-hash token is forbidden": None,
    "unknown start of token": None,
}
HARNESS = """macro_rules! m {{ ($($t:tt)*) => {{ concat!($(stringify!($t), " "),*) }} }}
fn main() {{ let s: &str = m!{{
{}
}}; print!("{{}}", s); }}
"""



def fault(said):
    """The first byte that a message on tokens points to, and the message; or None."""
    found = []
    for line in said.splitlines():
        it = json.loads(line)
        places = [span for span in it.get("spans", []) if span["is_primary"] and span["file_name"].endswith("x.txt")]
        words = next((ours or theirs for theirs, ours in MESSAGES.items() if theirs in it["message"]), None)
        if it.get("level") == "error" and places and words:
            found.append((places[0]["byte_start"], words))
    return min(found) if found else None


def judged(row):
    text, edition = row
    how = {"edition": edition}
    with common.folder() as folder:
        common.write(f"{folder}/x.txt", text)
        common.write(f"{folder}/a.rs", 'fn main() { include!("x.txt") }\n')
        common.write(f"{folder}/b.rs", HARNESS.format(text))
        words = ["--error-format=json", "-Awarnings"]
        first = fault(common.rustc(*words, "--emit=metadata", "a.rs", cwd=folder, **how).stderr)
        if first:
            return f"{first[1]} at {first[0]}"
        if common.rustc(*words, "-o", "b", "b.rs", cwd=folder, **how).returncode:
            return None
        return "ok " + re.sub(r"\s", "", common.run([f"{folder}/b"], check=True).stdout)


def new_texts(seed, count):
    """Random texts, each with an edition."""
    random.seed(seed)
    texts = []
    while len(texts) < count:
        text = "".join(random.choice(PARTS) for _ in range(random.randint(1, 6)))
        if not text.startswith("#!") and "\r\n" not in text:
            texts.append((text, random.choice(EDITIONS)))
    return texts


def print_rows(texts, answers):
    print(f'"""Random texts of an edition, each with what rustc makes of it, from `{NAME}`."""')
    print("\nROWS = {")
    for edition in EDITIONS:
        print(f"    {edition}: [")
        for (text, of), answer in zip(texts, answers):
            if of == edition and answer:
                print(f"        {(text, answer)!r},")
        print("    ],")
    print("}")


def check(pool, rows):
    """Asks rustc about each row, and prints each row that differs."""
    asked = [(text, str(edition), want) for edition, of_it in rows.items() for text, want in of_it]
    answers = pool.map(judged, [it[:2] for it in asked])
    differ = 0
    for (text, edition, want), got in zip(asked, answers):
        if got != want:
            differ += 1
            print(f"{edition}: {text!r}: {want}; rustc: {got}")
    return common.finish(len(asked) - differ, differ)


def main():
    parser = common.arguments(__doc__)
    parser.add_argument("seed", metavar="SEED", type=int, nargs="?", help="the seed of the texts")
    parser.add_argument("count", metavar="COUNT", type=int, nargs="?", help="the number of texts")
    parser.add_argument("--check", action="store_true",
                        help="compare the rows that exist with rustc")
    args = parser.parse_args()
    if args.check == (args.count is not None):
        parser.error("either --check, or SEED and COUNT")
    with ThreadPoolExecutor(3) as pool:
        if args.check:
            sys.path.insert(0, f"{common.TOP}/bindings/python/tests")
            return check(pool, __import__("random_tokens").ROWS)
        texts = new_texts(args.seed, args.count)
        print_rows(texts, list(pool.map(judged, texts)))
    return 0


if __name__ == "__main__":
    sys.exit(main())
