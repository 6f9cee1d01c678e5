"""Lists the calls that no rule matches: unmatched.py FILE.. takes the macros of all the files."""
import sys
from typing import Iterator

import mbe

IDENT, PUNCT, OPENING = 1, 2, 4


def calls(trees: mbe.Trees) -> Iterator[tuple[int, str]]:
    """The calls and the definitions of a file: the token of each name, and the name."""
    tokens, at = trees.tokens, 0
    while at + 2 < len(tokens):
        name, mark = tokens[at:at + 2]
        if name.kind == IDENT and mark.kind == PUNCT and mark.character == ord("!"):
            text = trees.text[name.offset:name.offset + name.len].decode()
            yield at, text
            if text == "macro_rules" and tokens[at + 3].kind == OPENING:
                at += 4 + tokens[at + 3].len  # a template has no calls yet
        at += 1


def main(paths: list[str]) -> int:
    texts = {path: open(path, "rb").read() for path in paths}
    files = {path: mbe.convert(text, dialect="rust") for path, text in texts.items()}
    macros: dict[str, list[mbe.Macro]] = {}
    for trees in files.values():
        for at, name in calls(trees):
            if name == "macro_rules" and trees.tokens[at + 3].kind == OPENING:
                word = trees.tokens[at + 2]
                defined = trees.text[word.offset:word.offset + word.len].decode()
                macros.setdefault(defined, []).append(mbe.rust_macro(trees.group(at + 3)))
    status = 0
    for path, trees in files.items():
        for at, name in calls(trees):
            if name not in macros or trees.tokens[at + 2].kind != OPENING:
                continue
            argument = trees.group(at + 2)
            if all(it.expand(argument).fault for it in macros[name]):
                line = texts[path][:trees.tokens[at].span.start].count(b"\n") + 1
                print(f"{path}:{line}: no rule matches {name}!")
                status = 1
    return status


if __name__ == "__main__":
    sys.exit(main(sys.argv[1:]))
