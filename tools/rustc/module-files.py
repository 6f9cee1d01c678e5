#!/usr/bin/env python3
"""Compares the rows of crates/mbe_tests/src/text/modules.rt with rustc: which file `mod x;`
names.

For each row the script makes a crate of just the files that the row needs: once with each
candidate, once with none, and once with both. It prints each row on which rustc differs. Rows
with absolute paths don't count.
"""
import os
import pathlib
import re
import sys

sys.path.insert(0, os.path.dirname(os.path.dirname(os.path.abspath(__file__))))
import common  # noqa: E402

ROWS = pathlib.Path(common.TOP) / "crates/mbe_tests/src/text/modules.rt"

STRING = r'"([^"]*)"'


def module(text, body):
    name, _, path = text.partition("=")
    return (f'#[path = "{path}"] ' if path else "") + f"mod {name}{body}"


def said(folder, own, around, name, found):
    """What rustc says of the crate with these candidates."""
    text = module(name, ";")
    for inline in reversed(around.split()):
        text = module(inline, f" {{ {text} }}")
    with common.folder() as base:
        base = pathlib.Path(base)
        home = base / folder
        home.mkdir(parents=True, exist_ok=True)
        (home / "lib.rs").write_text(f"mod {own};" if own else text)
        if own:
            (home / f"{own}.rs").write_text(text)
        for path in found:
            (base / path).parent.mkdir(parents=True, exist_ok=True)
            (base / path).write_text('compile_error!("found");')
        words = ["--crate-type", "lib", "--error-format", "short", "--emit", "metadata"]
        return common.rustc(*words, "-o", f"{base}/out", f"{home}/lib.rs").stderr


def wrong(row):
    *place, candidates = row
    candidates = candidates.split()
    for found in [[c] for c in candidates]:
        if "found" not in said(*place, found):
            yield f"{found} isn't found"
    if "E0583" not in said(*place, []) and len(candidates) == 2:
        yield "none is no E0583"
    if len(candidates) == 2 and "E0761" not in said(*place, candidates):
        yield "both are no E0761"


def main():
    common.arguments(__doc__).parse_args()
    text = ROWS.read_text().partition("const IN_FILES")[0]
    five = r",\s*".join([STRING] * 5)
    all_rows = re.findall(rf"\(\s*{five},?\s*\)", text)
    rows = [row for row in all_rows if not any(it.startswith("/") for it in row[-1].split())]
    differ = 0
    for row in rows:
        faults = list(wrong(row))
        differ += bool(faults)
        print("".join(f"{row}: {what}\n" for what in faults), end="")
    print(f"{len(all_rows)} rows; {len(all_rows) - len(rows)} with absolute paths don't count")
    return common.finish(len(rows) - differ, differ)


if __name__ == "__main__":
    sys.exit(main())
