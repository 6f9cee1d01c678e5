"""Expands one call of a macro, explains how its rules read an argument, shows tokens, or runs
`expandm` on many packages.

A text that begins with `@` is the name of a file, as `@rules.txt`, or `@-` for standard input. The
exit status is 0, or 1 if the expansion has an error, or 2 if there is no answer.
"""
from __future__ import annotations

import argparse
import sys
from typing import Optional, Sequence

from . import Error, Macro, Span, __version__, c, convert, corpus

#: The files of spans, and the file of the call itself, which has no text.
FILES = ["rules", "argument"]
CALL = len(FILES)


def _text(word: str) -> bytes:
    if not word.startswith("@"):
        return word.encode()
    if word == "@-":
        return sys.stdin.buffer.read()
    with open(word[1:], "rb") as it:
        return it.read()


def _parser() -> argparse.ArgumentParser:
    parser = argparse.ArgumentParser(prog="python -m mbe", description=__doc__,
                                     formatter_class=argparse.RawDescriptionHelpFormatter)
    parser.add_argument("--version", action="version", version=f"mbe {__version__}")
    commands = parser.add_subparsers(dest="command", required=True, metavar="COMMAND")
    for name, about in (("expand", "print the expansion of a call"),
                        ("explain", "print how each rule reads the argument"),
                        ("convert", "print the trees of a text")):
        command = commands.add_parser(name, help=about, description=about)
        command.add_argument("--edition", type=int, default=2024, metavar="YEAR")
        command.add_argument("--dialect", choices=list(c.DIALECTS), default="rust")
        if name != "convert":
            command.add_argument("--grammar", choices=list(c.GRAMMARS), default="rust")
            command.add_argument("rules", type=_text, metavar="RULES",
                                 help="the rules of the macro, without its name and braces")
        if name != "explain":
            command.add_argument("--form", choices=["lines", "rust"], default="rust")
        if name == "expand":
            command.add_argument("--style", choices=list(c.STYLES), default="fn")
        shown = "TEXT" if name == "convert" else "ARGUMENT"
        command.add_argument("text", type=_text, metavar=shown)
    about = "lint and expand many packages by the program expandm"
    more = "Arguments after `--` are options of expandm, as in `-- --all-features`."
    corpus.add_arguments(commands.add_parser("corpus", help=about, description=about, epilog=more))
    return parser


def _run(args: argparse.Namespace, options: Sequence[str]) -> int:
    if args.command == "corpus":
        return corpus.main(args, options)
    if args.command == "convert":
        print(convert(args.text, args.form, args.edition, args.dialect))
        return 0
    macro = Macro(args.rules, args.edition, args.dialect, args.grammar)
    if args.command == "explain":
        for rule, verdict in enumerate(macro.explain(args.text), 1):
            place = f" at {verdict.place}" if verdict.reading in ("ambiguous", "stuck") else ""
            print(f"rule {rule}: {verdict.reading}{place}")
        return 0
    found = macro.expand(args.text, args.form, Span(file=CALL), args.style)
    print(found)
    if found.fault is not None:
        span = found.fault.span
        where = ""
        if span.file != CALL:
            where = f" ({FILES[span.file]}, bytes {span.start}..{span.end})"
        print(f"error: {found.fault.message}{where}", file=sys.stderr)
        return 1
    return 0


def main(words: Optional[Sequence[str]] = None) -> int:
    """Runs the command that the words name, and returns its exit status."""
    given = list(sys.argv[1:] if words is None else words)
    options: list[str] = []
    if given[:1] == ["corpus"] and "--" in given:
        at = given.index("--")
        given, options = given[:at], given[at + 1:]
    try:
        return _run(_parser().parse_args(given), options)
    except (Error, OSError) as why:
        print(f"error: {why}", file=sys.stderr)
        return 2


if __name__ == "__main__":
    sys.exit(main())
