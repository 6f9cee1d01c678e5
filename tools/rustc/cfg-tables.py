#!/usr/bin/env python3
"""Compares the tables of crates/mbe_cfg/src/targets.rt with rustc: the options of each target.

The script prints each option that only the table or only `rustc --print cfg` has. With --write it
writes the tables anew instead, from what rustc prints: targets.rt, and specs/TargetTables.antt.
"""
import os
import pathlib
import re
import sys

sys.path.insert(0, os.path.dirname(os.path.dirname(os.path.abspath(__file__))))
import common  # noqa: E402

TARGETS = [
    ("X86_64_LINUX", "X86_64Linux", "x86_64-unknown-linux-gnu"),
    ("X86_64_WINDOWS", "X86_64Windows", "x86_64-pc-windows-msvc"),
    ("X86_64_MAC", "X86_64Mac", "x86_64-apple-darwin"),
    ("AARCH64_MAC", "Aarch64Mac", "aarch64-apple-darwin"),
    ("WASM32", "Wasm32", "wasm32-unknown-unknown"),
]

CRATE = pathlib.Path(common.TOP) / "crates/mbe_cfg"
FILE = CRATE / "src/targets.rt"
SPECS = CRATE / "specs/TargetTables.antt"

HEAD = """-- The options of targets. `tools/rustc/cfg-tables.py` compares them with rustc.
use Prim.Native.String.{String}
use Rattle.std.specs.Prelude.{ℕ, List, [], ◌∷◌, ◌++◌, codes, map, Option, Some, None}

-- A name, and its value if it has one.
abbrev pub Row : Type 0
Row = List ℕ × Option (List ℕ)

abbrev name : String → Row
name text = (codes text, None)

abbrev pair : String → String → Row
pair text value = (codes text, Some (codes value))

-- A name with each of its values.
abbrev pairs : List (String × List String) → List Row
pairs [] = []
pairs (named ∷ more) = map (pair named.0) named.1 ++ pairs more

abbrev table : List String → List (String × List String) → List Row
table names named = map name names ++ pairs named
"""


def printed(triple):
    """What rustc prints for a target: names, and names with values."""
    lines = common.run(["rustc", "--print", "cfg", "--target", triple], check=True).stdout
    return [re.fullmatch(r'(\w+)(?:="(.*)")?', line).groups() for line in lines.splitlines()]


def kept():
    """The tables of the file."""
    tables = {}
    table = r"const (\w+): &\[CfgOption<'static>\] = cfgs! \{\n([^;]*);\n(.*?)\};"
    for name, names, named in re.findall(table, FILE.read_text(), re.S):
        rows = [(option, None) for option in re.findall(r'"(\w+)"', names)]
        for option, values in re.findall(r'"(\w+)" = ([^;]*);', named):
            rows += [(option, value) for value in re.findall(r'"([^"]*)"', values)]
        tables[name] = rows
    return tables


def grouped(options):
    """The names without values, and the others with all of theirs."""
    named = {}
    for option, value in options:
        if value is not None:
            named.setdefault(option, []).append(value)
    return [option for option, value in options if value is None], named


def lines(words, between, first, more, room):
    """The words in lines of that many columns."""
    out, line = "", first + words[0]
    for word in words[1:]:
        if len(line + between.rstrip() + " " + word) + 4 > room:
            out += (line + between).rstrip() + "\n"
            line = more + word
        else:
            line += between + word
    return out + line


def code(options):
    names, named = grouped(options)
    text = "    " + ", ".join(f'"{name}"' for name in names) + ";\n"
    for option, values in named.items():
        words = [f'"{value}"' for value in values]
        text += lines(words, ", ", f'    "{option}" = ', "        ", 100) + ";\n"
    return text


def write():
    text = FILE.read_text()
    for name, _, triple in TARGETS:
        rows = code(printed(triple))
        table = rf"(const {name}: &\[CfgOption<'static>\] = cfgs! \{{\n).*?(\}};)"
        text = re.sub(table, lambda m, rows=rows: m[1] + rows + m[2], text, flags=re.S)
    FILE.write_text(text)
    SPECS.write_text(HEAD + "".join(spec(name, printed(triple)) for name, _, triple in TARGETS))


def spec(name, options):
    names, named = grouped(options)
    names = " ∷ ".join(f'"{option}"' for option in names)
    rows = [
        lines([f'"{value}"' for value in values] + ["[]"], " ∷ ", f'("{option}", ', "      ", 100) + ")" for option, values in named.items()
    ]
    rows = "    (" + "\n    ∷ ".join(rows) + "\n    ∷ [])\n"
    return f"\nabbrev pub {name.lower()} : List Row\n{name.lower()} =\n    table ({names} ∷ [])\n{rows}"


def main():
    parser = common.arguments(__doc__)
    parser.add_argument("--write", action="store_true", help="write the tables instead")
    if parser.parse_args().write:
        write()
        return 0
    tables, differing = kept(), set()
    for name, _, triple in TARGETS:
        ours, theirs = set(tables[name]), set(printed(triple))
        for option in sorted(ours ^ theirs, key=str):
            differing.add(triple)
            print(f"{triple}: {option} only in {'the table' if option in ours else 'rustc'}")
    return common.finish(len(TARGETS) - len(differing), len(differing))


if __name__ == "__main__":
    sys.exit(main())
