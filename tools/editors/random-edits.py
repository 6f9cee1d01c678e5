#!/usr/bin/env python3
"""Edits documents at random in a running mbe-lsp, and compares it with a fresh one on the same text.

    tools/editors/random-edits.py [--mbe-lsp PROGRAM] [--count N] [--seed S]

Each sequence opens a text in the running server, edits it at random ranges, in UTF-16 or in UTF-8,
and closes it. A fresh server opens the text that this script made by the same edits. Both must
publish the same diagnostics, and give the same answers. The last line is `N passed, M failed`.
"""
import os
import random
import sys

sys.path.insert(0, os.path.dirname(os.path.dirname(os.path.abspath(__file__))))
sys.path.insert(0, os.path.dirname(os.path.abspath(__file__)))
import common  # noqa: E402
from client import Client, sample_texts  # noqa: E402

URI = "file:///no-such-folder/a.rs"
WORDS = ["m!", "two", "$x", ":", "expr", "(", ")", "{", "}", "[", "]", "=>", ";", ",", " ", "\n",
         "\r\n", "\r", "\t", "macro_rules! ", "é", "\U0001d11e", "\"", "'", "//", "/*", "*/", "1",
         "$(", ")*", "fn f() { m!(1) }", "#", "\u2028", "a"]
METHODS = ["hover", "definition", "references", "completion", "signatureHelp", "prepareRename"]


def ends_of_lines(text):
    """The line ends of the protocol: where each line starts, and where its content ends."""
    starts, ends, at = [0], [], 0
    while at < len(text):
        if text[at] in "\r\n":
            ends.append(at)
            at += 2 if text.startswith("\r\n", at) else 1
            starts.append(at)
        else:
            at += 1
    return starts, [*ends, len(text)]


def units(text, encoding):
    return len(text.encode("utf-8")) if encoding == "utf-8" else len(text.encode("utf-16-le")) // 2


def position(text, offset, encoding):
    """The position of a character of a text that is not inside of a line end."""
    starts, _ = ends_of_lines(text)
    line = max(number for number, start in enumerate(starts) if start <= offset)
    return {"line": line, "character": units(text[starts[line]:offset], encoding)}


def offset_at(rng, text):
    """The offset of a random character, never between a carriage return and a line feed."""
    offset = rng.randrange(len(text) + 1)
    return offset - 1 if 0 < offset < len(text) and text[offset - 1:offset + 1] == "\r\n" else offset


def edit(rng, text, encoding):
    """A random change, and the text after it."""
    if rng.random() < 0.05:
        new = rng.choice(sample_texts())
        return {"text": new}, new
    start = offset_at(rng, text)
    end = start if rng.random() < 0.5 else offset_at(rng, text[:start + rng.randrange(40)])
    start, end = min(start, end), max(start, end)
    new = "".join(rng.choice(WORDS) for _ in range(rng.randrange(4)))
    change = {"range": {"start": position(text, start, encoding),
                        "end": position(text, end, encoding)}, "text": new}
    return change, text[:start] + new + text[end:]


def answers(client, rng, text, encoding):
    """The diagnostics of the document, and answers at random positions in it."""
    found = []
    document = {"uri": URI}
    for _ in range(3):
        at = position(text, offset_at(rng, text), encoding)
        for method in METHODS:
            found.append(client.request(f"textDocument/{method}", textDocument=document,
                                        position=at))
        for method in ("rust-analyzer/expandMacro", "mbe/expansion"):
            found.append(client.request(method, textDocument=document, position=at))
        found.append(client.request("mbe/expansion", textDocument=document, position=at,
                                    origins=True))
        found.append(client.request("textDocument/semanticTokens/range", textDocument=document,
                                    range={"start": {"line": 0, "character": 0}, "end": at}))
        found.append(client.request("textDocument/rename", textDocument=document, position=at,
                                    newName="renamed"))
        found.append(client.request("textDocument/selectionRange", textDocument=document,
                                    positions=[at]))
        found.append(client.request("textDocument/codeAction", textDocument=document,
                                    range={"start": at, "end": at}, context={"diagnostics": []}))
    for method in ("documentSymbol", "codeLens", "diagnostic", "foldingRange",
                   "semanticTokens/full"):
        found.append(client.request(f"textDocument/{method}", textDocument=document))
    return [it.get("result", it.get("error")) for it in found], client.diagnostics.get(URI)


def is_same(program, running, seed, encoding):
    """Whether a running server says what a fresh one says, after the edits of a seed."""
    rng = random.Random(seed)
    text = rng.choice(sample_texts())
    running.open(URI, text)
    for version in range(2, 2 + rng.randrange(1, 12)):
        changes = []
        for _ in range(rng.randrange(1, 4)):
            change, text = edit(rng, text, encoding)
            changes.append(change)
        running.change(URI, version, changes)
    fresh = Client(program, encoding)
    fresh.open(URI, text)
    asked = rng.random()
    got = answers(running, random.Random(asked), text, encoding)
    want = answers(fresh, random.Random(asked), text, encoding)
    status = fresh.close()
    running.notify("textDocument/didClose", textDocument={"uri": URI})
    if got != want:
        print(f"seed {seed}, {encoding}: the text is {text!r}\n  wanted {want}\n  got    {got}")
    return got == want and status == 0


def main():
    parser = common.arguments(__doc__)
    parser.add_argument("--mbe-lsp", metavar="PROGRAM", type=os.path.abspath,
                        help="the program mbe-lsp; if left out, this checkout's, without proof")
    parser.add_argument("--count", type=int, default=1000, help="how many sequences (1000)")
    parser.add_argument("--seed", type=int, default=1, help="the first seed (1)")
    args = parser.parse_args()
    program = common.mbe_lsp(args.mbe_lsp)
    servers = {it: Client(program, it) for it in ("utf-16", "utf-8")}
    passed = failed = 0
    for seed in range(args.seed, args.seed + args.count):
        encoding = "utf-8" if seed % 3 == 0 else "utf-16"
        good = is_same(program, servers[encoding], seed, encoding)
        passed, failed = passed + good, failed + (not good)
    failed += sum(it.close() != 0 for it in servers.values())
    return common.finish(passed, failed)


if __name__ == "__main__":
    sys.exit(main())
