#!/usr/bin/env python3
"""Compares the table of Rust's rules in `mbe_grammar` with rustc: how much of a text is a
fragment, in each edition.

The texts are in tools/rustc/rust-forms/forms.txt, one a line, under the name of a kind of
fragment. The script prints a line for each text on which the two differ, with what each says:
`fault`, or the part of the text that is the fragment. Below `[KIND refused]` are texts that rustc
refuses in some edition and of which the table may take a part; docs/DIFFERENCES.md says which
these are.

rustc: each kind has a macro with one rule, `(($f:kind)) => {}`. Each text is the argument of a
call, in parentheses. If the fragment isn't the whole text, an error "no rules expected .." is at
the first token after the fragment. So the location of that error is the fragment's end. Nothing
follows `$f` in the rule, so follow sets don't matter. The parentheses matter: without them, rustc
tries the call once more with a comma added, and reports what is wrong with that call.

Any other error at the text means that rustc refuses it. An error that the syntax is experimental
doesn't count, since rustc has read the text. The macros are in a crate of edition 2024, where `pat`
has alternatives and `expr` may be `_`. The calls are in a crate of each edition.

The table: a program (tools/rustc/rust-forms/mbe_rust_forms, run by `rt try`, without proof) lexes
each text, and prints the `count` of `rust_rules(edition, &[]).parse(kind, ..)`, as the byte at
which the next tree begins.
"""
import json
import os
import re
import sys

sys.path.insert(0, os.path.dirname(os.path.dirname(os.path.abspath(__file__))))
import common  # noqa: E402
from common import EDITIONS  # noqa: E402

HERE = f"{common.TOOLS}/rustc/rust-forms"
KINDS = ["path", "ty", "expr", "pat", "pat_param", "stmt", "block", "meta", "item", "vis"]
# What rustc says of what follows a fragment, and of a syntax that it has read and that isn't stable.
AFTER = "no rules expected"
GATED = "E0658"


def forms():
    """A kind, a text, and whether rustc may refuse what the table takes."""
    kind, refused = None, False
    for line in common.read(f"{HERE}/forms.txt").split("\n"):
        heading = re.fullmatch(r"\[(\w+)( refused)?\]", line)
        if heading and heading.group(1) in KINDS:
            kind, refused = heading.group(1), bool(heading.group(2))
        elif line.strip() and not line.startswith("# "):
            yield kind, line, refused


def by_rustc(edition, asked, folder):
    """The byte at which the fragment of each form ends; none if rustc refuses it."""
    source, starts = "", []
    for kind, text, _ in asked:
        source += f"k::k_{kind}!{{( "
        starts.append(len(source.encode()))
        source += f"{text} )}}\n"
    file = f"{folder}/calls{edition}.rs"
    common.write(file, source + "fn main() {}\n")
    words = ["--error-format=json", "--extern", f"k={folder}/libk.rmeta", "--emit=metadata"]
    words += ["-o", f"{folder}/calls{edition}", file]
    run = common.rustc(*words, edition=edition, env=common.NIGHTLY)
    said = [[] for _ in asked]
    for line in run.stderr.split("\n"):
        if not line.startswith("{"):
            continue
        message = json.loads(line)
        if message["level"] != "error" or (message.get("code") or {}).get("code") == GATED:
            continue
        for span in message["spans"]:
            if span["is_primary"] and span["file_name"] == file:
                at = span["line_start"] - 1
                if at < len(said):
                    said[at].append((message["message"], span["byte_start"] - starts[at]))
    return [end_of(messages, text) for messages, (_, text, _) in zip(said, asked)], said


def end_of(messages, text):
    after = [at for message, at in messages if message.startswith(AFTER)]
    if len(after) != len(messages) or after and after[0] == 0:
        return 0 if after == [0] and len(messages) == 1 else None
    return after[0] if after else len(text.encode())


def by_table(asked, folder):
    lines = "".join(f"{kind}\t{edition}\t{text}\n" for kind, edition, text in asked)
    made = common.lay_out(folder, f"{HERE}/mbe_rust_forms", ["mbe_tt", "mbe_text", "mbe_grammar"])
    run = common.run(["rt", "try", "--seconds", "300"], cwd=made, input=lines)
    if run.returncode != 0:
        sys.exit(run.stdout[-2000:] + run.stderr[-2000:])
    said = run.stdout.split("\n")[:len(asked)]
    return [None if line == "fault" else int(line) for line in said]


def shown(text, end):
    return "fault" if end is None else f"`{text.encode()[:end].decode().rstrip()}`"


def same(kind, text, rustc, table):
    """White space after a fragment belongs to neither; a fragment of no tokens is one for `vis` alone."""
    if kind != "vis" and rustc == 0:
        rustc = None
    if rustc is None or table is None:
        return rustc == table
    return text.encode()[:rustc].rstrip() == text.encode()[:table].rstrip()


def macros(folder):
    one = "#[macro_export] macro_rules! k_{0} {{ (($f:{0})) => {{}} }}\n"
    common.write(f"{folder}/k.rs", "".join(one.format(kind) for kind in KINDS))
    words = ["--crate-type=lib", "--crate-name=k", "--emit=metadata", "-o", f"{folder}/libk.rmeta"]
    common.rustc(*words, f"{folder}/k.rs", edition="2024", check=True)


def main():
    parser = common.arguments(__doc__)
    parser.add_argument("--kind", choices=KINDS, help="compare texts of this kind alone")
    parser.add_argument("--all", action="store_true", help="print the texts that don't differ too")
    parser.add_argument("folder", metavar="FOLDER", nargs="?", type=os.path.abspath,
                        help="keep the built program here for the next time")
    args = parser.parse_args()
    asked = [form for form in forms() if args.kind in (None, form[0])]
    differ, both = 0, {}
    with common.folder() as folder:
        macros(folder)
        rows = [(kind, edition, text) for edition in EDITIONS for kind, text, _ in asked]
        table = by_table(rows, args.folder or f"{folder}/built")
        for number, edition in enumerate(EDITIONS):
            rustc, said = by_rustc(edition, asked, folder)
            for at, ((kind, text, refused), ours) in enumerate(zip(asked, table[number * len(asked):])):
                both[edition] = both.get(edition, 0) + (ours is None and rustc[at] is None)
                equal = same(kind, text, rustc[at], ours) or refused and rustc[at] is None
                differ += not equal
                if not equal or args.all:
                    why = next((m for m, _ in said[at] if not m.startswith(AFTER)), "")
                    print(f"{edition} {kind}: {text}  rustc {shown(text, rustc[at])}, table {shown(text, ours)}  {why}")
    print(f"{len(asked)} forms in {len(EDITIONS)} editions, {differ} differ; both refuse "
          + ", ".join(f"{count} in {edition}" for edition, count in both.items())
          + f"; rustc alone may refuse {sum(refused for _, _, refused in asked)}")
    return common.finish(len(asked) * len(EDITIONS) - differ, differ)


if __name__ == "__main__":
    sys.exit(main())
