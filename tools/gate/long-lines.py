#!/usr/bin/env python3
"""Lists the lines of specs/ and proofs/ that are longer than 120 columns, or with --break breaks
them.

A line is broken where it is nested least: before an operator, after a `=` or a comma, or between
two arguments. What follows is indented by four columns more. Three sorts of lines are
left unchanged, and aren't listed: `use` lines, the types of answers that `rt` writes, and lines
with a comment at their end.
"""
import glob
import os
import re
import sys

sys.path.insert(0, os.path.dirname(os.path.dirname(os.path.abspath(__file__))))
import common  # noqa: E402
from common import TOP  # noqa: E402

LIMIT = 120
# From the loosest to the one that binds closest.
OPERATORS = ["→", "↔", "⊎", "×", "∙", "≡", "≢", "≤", "<", "||", "&&", "++", "∷", "+"]


def words_of(line):
    """Each word of a line: its column, its text, and how deep it is nested."""
    depth, at, words = 0, 0, []
    while at < len(line):
        if line[at] == " ":
            at += 1
            continue
        start, outer = at, depth
        while at < len(line) and line[at] != " ":
            if line[at] == '"':
                end = re.compile(r'"(?:[^"\\]|\\.)*"').match(line, at)
                at = end.end() if end else len(line)
                continue
            depth += (line[at] in "({[⟨") - (line[at] in ")}]⟩")
            at += 1
        words.append((start, line[start:at], outer))
    return words


def is_left(line):
    text = line.strip()
    is_goal = re.match(r"(?:abbrev )?pub (\S+) : goal\.\1$", text)
    return bool(is_goal) or text.startswith(("use ", "pub use ", "ghost use ")) or ("--" in text and not text.startswith("--"))


def is_comment(line, lead):
    """Whether a line continues a comment with that indentation."""
    return line.startswith(lead + "-- ") and not line.startswith(lead + "-- ---")


def break_comments(lines):
    """The lines, in which comments that are too long are broken. The rest of such a comment begins the next line of the
    comment."""
    lines, at = list(lines), 0
    while at < len(lines):
        line = lines[at]
        lead = line[:len(line) - len(line.lstrip())]
        if len(line) > LIMIT and is_comment(line, lead):
            cut = line.rfind(" ", 0, LIMIT + 1)
            lines[at], rest = line[:cut], line[cut + 1:]
            if at + 1 < len(lines) and is_comment(lines[at + 1], lead):
                lines[at + 1] = f"{lead}-- {rest} {lines[at + 1][len(lead) + 3:]}"
            else:
                lines.insert(at + 1, f"{lead}-- {rest}")
        at += 1
    return lines


def rank(words, i):
    """How well a line is broken before its word `i`: smaller is better."""
    word, before = words[i][1], words[i - 1][1]
    if before == "=" and words[i][2] == words[0][2]:
        return 0
    if word in OPERATORS:
        return 1 + OPERATORS.index(word)
    if before.endswith((",", ";")) or before == "in":
        return 20
    if before in OPERATORS or word in ("=", ":", "in", "where", "{") or before in (":", "λ", "let", "∀", "record", "Type") or before.startswith("λ"):
        return 99
    return 30


def break_line(line):
    if len(line) <= LIMIT or is_left(line) or line.strip().startswith("--"):
        return [line]
    indent = len(line) - len(line.lstrip())
    words = words_of(line)
    # The head of a definition or a signature is kept whole.
    fits = [i for i in range(1, len(words)) if words[i - 1][0] + len(words[i - 1][1]) <= LIMIT and rank(words, i) < 99 and words[i][0] > indent + 8]
    late = [i for i in fits if words[i][0] >= indent + (LIMIT - indent) // 3]
    if not (late or fits):
        return [line]
    best = min(late or fits, key=lambda i: (words[i][2], rank(words, i), -words[i][0]))
    head = line[:words[best][0]].rstrip()
    rest = " " * (indent + 4) + line[words[best][0]:]
    return [head, *break_rest(rest, indent + 4)]


def break_rest(line, indent):
    """The rest of a broken line: its further parts have the same indentation, where they are nested as little."""
    if len(line) <= LIMIT:
        return [line]
    words = words_of(line)
    fits = [i for i in range(1, len(words)) if words[i - 1][0] + len(words[i - 1][1]) <= LIMIT and rank(words, i) < 99]
    late = [i for i in fits if words[i][0] >= indent + (LIMIT - indent) // 3]
    if not (late or fits):
        return [line]
    best = min(late or fits, key=lambda i: (words[i][2], rank(words, i), -words[i][0]))
    deeper = indent if words[best][2] == 0 else indent + 4
    return [line[:words[best][0]].rstrip(), *break_rest(" " * deeper + line[words[best][0]:], indent if deeper == indent else deeper)]


def main():
    parser = common.arguments(__doc__)
    parser.add_argument("crates", metavar="CRATE", nargs="*", help="look at these crates alone")
    parser.add_argument("--break", dest="breaks", action="store_true", help="break the lines")
    args = parser.parse_args()
    files = [file for crate in args.crates or ["*"]
             for file in sorted(glob.glob(f"{TOP}/crates/{crate}/**/*.antt", recursive=True))]
    files = [file for file in files if "/out/" not in file]
    with_long = set()
    for file in files:
        lines = common.read(file).split("\n")
        if args.breaks:
            lines = [it for line in break_comments(lines) for it in break_line(line)]
            common.write(file, "\n".join(lines))
        for number, line in enumerate(lines, 1):
            if len(line) > LIMIT and not is_left(line):
                with_long.add(file)
                print(f"{os.path.relpath(file, TOP)}:{number}: {len(line)} columns")
    return common.finish(len(files) - len(with_long), len(with_long))


if __name__ == "__main__":
    sys.exit(main())
