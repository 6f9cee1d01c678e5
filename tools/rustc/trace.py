#!/usr/bin/env python3
"""Compares the expansion of each call by `expandm --once --trace` with the one by rustc's `-Z
trace-macros`.

A PATH is a Rust file or a folder of them. rustc traces the calls of a file even if the file
doesn't compile by itself. A call counts if it is in the file itself, not in an expansion, and if
the file defines its macro. The script compares the tokens of the first step of both, except for:

- Parentheses: `expandm` writes them around `$e:expr`, rustc has an invisible group there.
- The `$` of `$crate`.

The script prints both sides for each call that differs, and then the numbers. It counts apart the
calls that differ only because rustc prints two words as one (`mutself`). The edition is the one
of the line `// edition:YEAR`, else 2021.
"""
import json
import os
import re
import subprocess
import sys
from concurrent.futures import ThreadPoolExecutor

sys.path.insert(0, os.path.dirname(os.path.dirname(os.path.abspath(__file__))))
import common  # noqa: E402

TOKEN = re.compile(r'''
    //[^\n]*|/\*.*?\*/
  | (?P<raw>(?:b|c)?r(?P<hashes>\#*)".*?"(?P=hashes))
  | (?:b|c)?"(?:[^"\\]|\\.)*"
  | b?'(?:\\(?:u\{[^}]*\}|x..|.)|[^\\'])'
  | '?(?:r\#)?[^\W\d]\w*
  | \d[\w]*(?:\.\d\w*)?
  | \S
''', re.X | re.S)


DOC = re.compile(r"///(?!/)(.*)|//!(.*)|/\*\*(?![*/])(.*)\*/|/\*!(.*)\*/", re.S)
RAW = re.compile(r'r(#*)"(.*)"\1', re.S)


def tokens(text):
    """The tokens of a text without comments and parentheses; docs as attributes, and raw strings without their signs."""
    found = []
    for it in TOKEN.finditer(text):
        token = it.group(0)
        doc, raw = DOC.fullmatch(token), RAW.fullmatch(token)
        if doc:
            inner = "!" if token[2] == "!" else ""
            said = next(part for part in doc.groups() if part is not None)
            found += ["#", *inner, "[", "doc", "=", f"raw {said}", "]"]
        elif raw:
            found.append(f"raw {raw.group(2)}")
        elif token not in "()" and not token.startswith(("//", "/*")):
            found.append(token)
    return [it for at, it in enumerate(found) if it != "$" or found[at + 1:at + 2] != ["crate"]]



def edition(text):
    found = re.search(r"//\s*edition:\s*(\d+)", text)
    return found.group(1) if found else "2021"


def traced(path, year):
    """What rustc makes of each call, by its line and column."""
    words = ["-Ztrace-macros", "--crate-type", "lib", "--error-format=json", "--emit=metadata"]
    # rustc replaces what -o names by a file, even a device, so it gets a name in an own folder.
    with common.folder() as folder:
        try:
            ran = common.rustc(*words, "-o", f"{folder}/o", path, edition=year, timeout=120,
                               env=common.NIGHTLY)
        except subprocess.TimeoutExpired:
            return {}
    found = {}
    for line in ran.stderr.split("\n"):
        if not line.startswith("{"):
            continue
        said = json.loads(line)
        if said.get("message") != "trace_macro" or not said["spans"]:
            continue
        place = said["spans"][0]
        notes = [it["message"] for it in said["children"]]
        first = next((it for it in notes if it.startswith("to `")), None)
        if first and place["file_name"] == path:
            found.setdefault((place["line_start"], place["column_start"]), first[4:-1])
    return found


STEP = re.compile(r"^[^\n]*?:(\d+):(\d+): note: to `(.*?)`\n *\d+ \| [^\n]*\n +\| [ \t]*\^$", re.M | re.S)


def expanded(program, path, year):
    """What expandm makes of each call of the file, by the line and column of the name that is called."""
    words = [program, "--once", "--trace", "--no-modules", "--edition", year, path]
    try:
        ran = common.run(words, timeout=120)
    except subprocess.TimeoutExpired:
        print(f"{path}: expandm takes more than two minutes", file=sys.stderr)
        return {}
    return {(int(line), int(column)): text for line, column, text in STEP.findall(ran.stderr)}


def compared(program, path):
    """How many calls of a file both expand, how many of them only rustc prints with words as one, and those that differ."""
    text = common.read(path)
    if "macro_rules" not in text:
        return 0, 0, []
    year = edition(text)
    theirs = traced(path, year)
    ours = expanded(program, path, year) if theirs else {}
    both = sorted(theirs.keys() & ours.keys())
    differ = [at for at in both if tokens(theirs[at]) != tokens(ours[at])]
    words = [at for at in differ if "".join(tokens(theirs[at])) == "".join(tokens(ours[at]))]
    return len(both), len(words), [(path, at, theirs[at], ours[at]) for at in differ if at not in words]


def main():
    parser = common.arguments(__doc__)
    parser.add_argument("paths", metavar="PATH", nargs="+")
    common.add_expandm(parser)
    args = parser.parse_args()
    program = common.expandm(args.program)
    with ThreadPoolExecutor(3) as pool:
        files = common.rust_files(args.paths)
        results = list(pool.map(lambda path: compared(program, path), files))
    differ = [it for _, _, found in results for it in found]
    for path, (line, column), theirs, ours in differ:
        print(f"{path}:{line}:{column}\n  rustc:   {theirs}\n  expandm: {ours}")
    calls, words = sum(it[0] for it in results), sum(it[1] for it in results)
    print(f"{calls} calls in {sum(1 for it in results if it[0])} files, {words} that rustc prints with two words as one, {len(differ)} differ")
    return common.finish(calls - len(differ), len(differ))


if __name__ == "__main__":
    sys.exit(main())
