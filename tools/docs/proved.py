#!/usr/bin/env python3
"""Compares docs/PROVED.md with the sources.

    tools/docs/proved.py             writes the table of the functions without a contract
    tools/docs/proved.py --check     writes nothing, and prints a line for each difference

- Each name in the columns "What" and "Contract" is a definition, a law, a type, a function, a
  module or a file of the crates. `PATH::NAME` counts by its last name.
- Each crate of crates.txt has a row: it is in a heading, or a name of a row begins with it.
- Each public function of a crate has a clause `ensures`, or is in the table of the functions without
  a contract.
"""
import glob
import os
import re
import sys

sys.path.insert(0, os.path.dirname(os.path.dirname(os.path.abspath(__file__))))
import common  # noqa: E402
from common import TOP  # noqa: E402

PAGE = f"{TOP}/docs/PROVED.md"
HEAD = "| What | Claim | Contract | Not covered |"
TABLE = re.compile(r"(<!-- tools/docs/proved\.py writes this table -->\n)(.*?)(<!-- up to here -->)", re.S)
FUNCTION = re.compile(r"^ *pub (?:const )?fn (\w+)(.*?)(?:^ *\{|\{ *$|\n\})", re.M | re.S)
# Crates whose functions are for tests alone.
TESTS = {"mbe_tests", "session_tests", "test_rows"}
# The tests of the functions without a contract.
TESTED_BY = {
    "expandm": "`tests/expandm`", "mbe_files": "`tests/expandm`", "mbe_session": "`tests/expandm`",
    "mbe_cargo": "`tests/expandm`", "mbe_markup": "`tests/expandm`", "mbe_page": "`tests/expandm`", "mbe_reports": "`tests/expandm`",
    "mbe_answers": "`tests/mbe_lsp`", "mbe_calls": "`tests/mbe_lsp`", "mbe_lsp": "`tests/mbe_lsp`", "mbe_protocol": "`tests/mbe_lsp`",
    "mbe_program": "`tests/mbex`", "mbe_text": "`crates/mbe_tests`"}
WIDEST = 150


def crates():
    return sorted(os.path.basename(os.path.dirname(it)) for it in glob.glob(f"{TOP}/crates/*/src"))


def sources_of(crate, *ends):
    return [it for end in ends for it in sorted(glob.glob(f"{TOP}/crates/{crate}/{end}", recursive=True))]


# ---- the functions without a contract

def functions_of(path):
    """The public functions of a file: those with a clause `ensures`, and those without one."""
    proved, bare = [], []
    for name, signature in FUNCTION.findall(common.read(path)):
        (proved if re.search(r"\bensures\b", signature) else bare).append(name)
    return proved, bare


def rows():
    """The rows of the table: a module, its public functions without a contract, their tests."""
    for crate in sorted(set(crates()) - TESTS):
        for path in sources_of(crate, "src/**/*.rt"):
            _, bare = functions_of(path)
            module = os.path.relpath(path, f"{TOP}/crates/{crate}/src")[:-3].replace("/", "::")
            name = crate if module in ("lib", "main") else f"{crate}::{module}"
            tests, part = TESTED_BY.get(crate, "no test names it"), []
            for function in dict.fromkeys(bare):
                if part and len(", ".join(part)) + len(function) > WIDEST:
                    yield name, part, tests
                    part = []
                part.append(f"`{function}`")
            if part:
                yield name, part, tests


def table():
    lines = ["| Module | Functions | Tests |", "|---|---|---|"]
    lines += [f"| `{module}` | {', '.join(functions)} | {tests} |" for module, functions, tests in rows()]
    return "\n" + "\n".join(lines) + "\n\n"


# ---- the names of the page

def known_code():
    """The code of the crates as one text, without lines of comments, and the paths of its files."""
    lines, paths = [*crates()], []
    for crate in crates():
        for path in sources_of(crate, "src/**/*.rt", "specs/**/*.antt", "proofs/**/*.antt"):
            paths.append(os.path.relpath(path, f"{TOP}/crates"))
            if "/proofs/" not in path:
                lines += (it for it in common.read(path).split("\n") if not it.lstrip().startswith(("//", "--")))
    return "\n".join(lines), paths


def named_in(text):
    """The cells of the tables of claims that name something, without the column of claims."""
    for part in text.split(HEAD)[1:]:
        for line in part.split("\n")[2:]:
            if not line.startswith("|"):
                break
            cells = [it.strip() for it in re.split(r"(?<!\\)\|", line)[1:-1]]
            for number in (0, 2):
                yield from re.findall(r"`([^`]+)`", cells[number])


def is_known(name, code, paths):
    if "/" in name:
        return any(name in path for path in paths) or os.path.exists(f"{TOP}/{name}")
    if not re.fullmatch(r"[\w:.']+!?", name):
        return True  # a part of a text in Rust, or an option
    return all(has_word(code, it) for it in re.split(r"::|\.", name.rstrip("!")) if it)


def has_word(code, word):
    """Whether a text has a word. A word that ends in `_` is a prefix."""
    at = code.find(word)
    while at >= 0:
        end = at + len(word)
        if not is_letter(code[at - 1:at]) and (word.endswith("_") or not is_letter(code[end:end + 1])):
            return True
        at = code.find(word, at + 1)
    return False


def is_letter(char):
    return char.isalnum() or char == "_"


def faults(text):
    code, paths = known_code()
    named = list(named_in(text))
    yield from (f"not in the sources: {it}" for it in dict.fromkeys(named) if not is_known(it, code, paths))
    headings = " ".join(re.findall(r"^#+ (.*)$", text, re.M))
    for crate in crates():
        if not re.search(rf"\b{crate}\b", headings) and not any(re.match(rf"{crate}\b", it) for it in named):
            yield f"no row names the crate {crate}"
    found = TABLE.search(text)
    if not found or found[2] != table():
        yield "the table of the functions without a contract differs; run tools/docs/proved.py"


def main():
    parser = common.arguments(__doc__)
    parser.add_argument("--check", action="store_true", help="only compare")
    arguments = parser.parse_args()
    text = common.read(PAGE)
    if not arguments.check:
        text = TABLE.sub(lambda it: it[1] + table() + it[3], text)
        common.write(PAGE, text)
    found = list(faults(text))
    print("".join(f"docs/PROVED.md: {it}\n" for it in found), end="")
    total = sum(len(proved) + len(bare) for crate in set(crates()) - TESTS
                for proved, bare in map(functions_of, sources_of(crate, "src/**/*.rt")))
    return common.finish(total if not found else 0, len(found))


if __name__ == "__main__":
    sys.exit(main())
