"""What texts are, from Python: tokens of both dialects, and trees as Rust text. A line for each row that fails, and `N passed, M failed`."""
import sys

import mbe
from mbe import c
from tests import random_tokens, rust_texts, rust_tokens
from tests.suffixes import SUFFIXES

IDENT, PUNCT, LITERAL, OPENING = 1, 2, 3, 4
# What is before and after each sort of literal; `#` is there as often as it says.
QUOTES = [("b'", "'"), ("'", "'"), ("", ""), ("", ""), ('"', '"'), ('r#"', '"#'), ('b"', '"'), ('br#"', '"#'), ('c"', '"'), ('cr#"', '"#'),
          ("", "")]
passed = failed = 0


def check(row, found, wanted):
    global passed, failed
    if found == wanted:
        passed += 1
    else:
        failed += 1
        print(f"failed: {row!r} is {found!r}, and not {wanted!r}")


def literal(token, text):
    """A literal as it is written."""
    before, after = (it.replace("#", "#" * token.hashes) for it in QUOTES[token.sort])
    end = len(text) - token.suffix_len
    return before + text[:end].decode() + after + text[end:].decode()


def spelled(token, text):
    """A token of a line, with a space after it if it isn't joint."""
    own = text[token.offset:token.offset + token.len]
    if token.kind == IDENT:
        return ("r#" if token.sort else "") + own.decode() + " "
    if token.kind == PUNCT:
        return chr(token.character) + ("" if token.sort else " ")
    if token.kind == LITERAL:
        return literal(token, own) + " "
    return ["( ", "{ ", "[ ", "$ "][token.sort] if token.kind == OPENING else "] "


def line(edition, text):
    """The tokens of a text of whole Rust, or its fault."""
    try:
        trees = mbe.convert(text, "tokens", edition, "rust")
    except mbe.Error as wrong:
        return f"{wrong.message} at {wrong.place}"
    return "".join(spelled(token, trees.text) for token in trees.tokens[1:-1])


def suffixes(text):
    """The suffix of each literal, with a `;` after it."""
    trees = mbe.convert(text)
    ends = [(token.offset + token.len, token.suffix_len) for token in trees.tokens if token.kind == LITERAL]
    return "".join(trees.text[end - len_:end].decode() + ";" for end, len_ in ends)


def joined(texts, edition, dialect):
    """The trees of texts, each of a file of its own, side by side."""
    opening, closing = mbe.convert("").tokens
    found, words = [], b""
    for file, text in enumerate(texts):
        trees = mbe.convert(text, "tokens", edition, dialect, file)
        for token in trees.tokens[1:-1]:
            token.offset += len(words) if token.kind in (IDENT, LITERAL) else 0
            found.append(token)
        words += trees.text
    return c.Trees((opening, *found, closing), words)


def rust_text(trees):
    return mbe.convert(trees, "rust").text.decode()


def doc_of(text):
    """The trees that the lexer makes of a doc comment with that text, all with one span."""
    trees = mbe.convert('#[doc = r"a"]', "tokens", 2021, "rust")
    for token in trees.tokens:
        token.span = mbe.Span(end=9)
        if token.kind == LITERAL:
            token.offset, token.len = 3, len(text.encode())
    return c.Trees(trees.tokens, b"doc" + text.encode())


for edition, rows in rust_tokens.ROWS.items():
    for text, wanted in rows:
        check(text, line(edition, text), wanted)
for edition, rows in random_tokens.ROWS.items():
    for text, wanted in rows:
        is_read = wanted.startswith("ok ")
        found = line(edition, text)
        check(text, "".join(found.split()) if is_read else found, wanted[3:] if is_read else wanted)
for text, wanted in SUFFIXES:
    check(text, suffixes(text), wanted)
for texts, wanted in rust_texts.ROWS:
    check(texts, rust_text(joined(texts.split("~"), 2024, "sample")), wanted)
for texts, wanted in rust_texts.COMMENTS + rust_texts.DOTS:
    check(texts, rust_text(joined(texts.split("~"), 2021, "rust")), wanted)
for count in rust_texts.HASHES:
    text = rust_texts.with_hashes(count)
    check(count, rust_text(joined([text], 2021, "rust")), text)
for text, wanted in rust_texts.TEXTS:
    check(text, rust_text(doc_of(text)), wanted)
# `1.a` is three tokens, of which the first two, before a group of another file, would be the number `1.`.
one, other = joined(["1.a"], 2024, "sample"), joined(["", "(2)"], 2024, "sample")
other.tokens[2].offset += len(one.text)
check("1.a~(2)", rust_text(c.Trees((*one.tokens[:3], *other.tokens[1:]), one.text + other.text)), "1 .(2)")
print(f"{passed} passed, {failed} failed")
sys.exit(failed != 0)
