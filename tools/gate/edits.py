#!/usr/bin/env python3
"""Tries edits of the code with the prover, which must refuse each, and prints what refused it.

The edits are in tools/edits/CRATE. With --gate the script also tries those of
crates/CRATE/must-fail, which `rt ci` tries. It works on a copy of the repository, with what
earlier checks proved there; so check the crates first. It checks the functions that an edit
changes, or with --whole the whole crate.

An edit is a file of lines. `file: FILE` names a file of the crate, and `old: TEXT` a text that is
in it exactly once. `new: TEXT` replaces the text. A further line that begins with none of these
words belongs to the text above it. (In must-fail a text is one line: the kit reads no more.)

Each edit ends as one of these. The first two pass:

goal     A goal of the code is open: the contract refuses the edit, or a law of a trait does, which
         `search` must prove.
answer   The answer that a proof file gives to a goal no longer proves it: the values that it speaks
         of have changed.
text     Only a proof file is refused. It names a step that the edit took away, or that has another
         name because the edit calls that function more or less often. This says nothing about the
         contract, so write the edit with the same steps.
proved   Nothing is refused: the contract is too weak.
bad      The edit can't be applied, or doesn't reach the prover.
"""
import os
import re
import shutil
import subprocess
import sys

sys.path.insert(0, os.path.dirname(os.path.dirname(os.path.abspath(__file__))))
import common  # noqa: E402
from common import TOP  # noqa: E402

LOST_NAME = re.compile(r"has no field|is not in scope|has no `|was not admitted|projects from a record|is no name|cannot find")


def fields(edit):
    """The lines of an edit as keys and values; a value may have several lines."""
    found = []
    for line in common.read(edit).rstrip("\n").split("\n"):
        key, colon, value = line.partition(":")
        if colon and key in ("file", "old", "new", "tests"):
            found.append([key, value.removeprefix(" ")])
        elif found and not line.startswith(("#", "--", "//")):
            found[-1][1] += "\n" + line
    return found


def texts_of(edit, crate):
    """The edited texts by file, and where each file is changed; or what is wrong with the edit."""
    texts, changed, file, old = {}, [], "", None
    for key, value in fields(edit):
        if key == "file":
            file = value.strip()
        elif key == "old":
            old = value
        elif key == "new":
            if file not in texts:
                texts[file] = common.read(f"{crate}/{file}")
            if texts[file].count(old) != 1:
                return None, f"`{old}` is in {file} {texts[file].count(old)} times"
            changed.append((file, function_at(texts[file], texts[file].index(old))))
            texts[file] = texts[file].replace(old, value)
    return texts, changed


def function_at(text, at):
    """The function at an offset, as `--only` names it below its module."""
    function, owner = None, ""
    for line in text[:at].split("\n") + [text[at:].split("\n")[0]]:
        is_impl = re.match(r"impl\b(?:<[^{]*?>)? (?:(?P<of>[\w:]+)(?:<.*?>)? for )?(?P<type>\w+)", line)
        is_fn = re.match(r"( {4})?(?:pub(?:\(\w+\))? )?(?:extern \"C\" )?fn (\w+)", line)
        if is_impl:
            owner = is_impl["type"] + (is_impl["of"] or "").split("::")[-1]
            function = None
        elif is_fn and is_fn[1]:
            function = f"{owner}::{is_fn[2]}"
        elif is_fn:
            function = is_fn[2]
        elif line == "}":
            function, owner = None, ""
    return function


def path_of(file, function):
    """A method is named by its type, which may stand in another module, and a free function by its module."""
    module = file.removeprefix("src/").removesuffix(".rt").replace("/", "::")
    return function if "::" in function or module in ("lib", "main") else f"{module}::{function}"


def check(crate, functions):
    words = ["rt", "check", "--jobs", "1"]
    for it in functions:
        words += ["--only", it]
    ran = common.run(words, cwd=crate, stdin=subprocess.DEVNULL, capture_output=False,
                     stdout=subprocess.PIPE, stderr=subprocess.STDOUT)
    return ran.returncode, ran.stdout


def calls_changed(edit):
    """The names of the functions that the edit calls more or less often."""
    number = {}
    for key, value in fields(edit):
        for name in re.findall(r"(\w+)(?:::<.*?>)?\(", value):
            number[name] = number.get(name, 0) + (1 if key == "new" else -1)
    return {name for name, it in number.items() if it}


def cites_any(file, names):
    return sorted(set(re.findall(r"\bc\.(\w+)", common.read(file))) & names)


def verdict(status, said, crate, edit):
    """How an edit ends, and the part of the check's output that shows it."""
    if status == 0:
        return "proved", "every goal is still proved"
    refused = ", ".join(re.findall(r"(?m)^fn \w+::(\S+): (?:not proved|no proof)", said))
    goals = re.findall(r"(?m)^note: src/\S+: .*\(`([^`]*)`\)", said)
    if goals:
        return "goal", f"{' '.join(dict.fromkeys(goals))} of {refused}"
    laws = re.findall(r"(?m)^src/\S+: error: `(\w+)-value`: `search`: no proof of", said)
    if laws:
        return "goal", f"the law {' '.join(dict.fromkeys(laws))}, which `search` doesn't prove"
    errors = re.findall(r"(?m)^(?:\./)?(proofs/\S+?): error: (.*)", said)
    answers = [(where.split(":")[0], re.match(r"`([^`]*)`", what)) for where, what in errors if not LOST_NAME.search(what)]
    renamed = {it for file in {file for file, _ in answers} for it in cites_any(f"{crate}/{file}", calls_changed(edit))}
    if answers and not renamed:
        return "answer", f"{' '.join(dict.fromkeys(it[1] for _, it in answers if it))} of {refused}"
    if answers:
        return "text", f"{answers[0][0]} names {', '.join(sorted(renamed))}, which the edit calls more or less often"
    if errors:
        where, what = errors[0]
        return "text", f"{where}: {what[:140]}"
    last = [it for it in said.split("\n") if "error" in it] or said.rstrip().split("\n")
    return "bad", last[0][:200]


def tried(edit, crate, is_whole):
    texts, changed = texts_of(edit, crate)
    if texts is None:
        return "bad", changed
    functions = [path_of(*it) for it in changed if it[1]]
    with common.folder() as aside:
        for number, (file, text) in enumerate(texts.items()):
            shutil.copy2(f"{crate}/{file}", f"{aside}/{number}")
            common.write(f"{crate}/{file}", text)
        status, said = 2, ""
        if not is_whole and len(functions) == len(changed):
            status, said = check(crate, functions)
        # (no function fits the name, or the edit is in none)
        if status == 2:
            status, said = check(crate, [])
        for number, file in enumerate(texts):
            shutil.copy2(f"{aside}/{number}", f"{crate}/{file}")
    return verdict(status, said, crate, edit)


def edits_of(top, words, with_gate):
    found = []
    for name in sorted(os.listdir(f"{top}/crates")):
        for folder in [f"tools/edits/{name}", *([f"crates/{name}/must-fail"] if with_gate else [])]:
            if os.path.isdir(f"{top}/{folder}"):
                found += [(name, f"{top}/{folder}/{it}") for it in sorted(os.listdir(f"{top}/{folder}")) if it.endswith(".edit")]
    return [it for it in found if not words or it[0] in words or f"{it[0]}/{os.path.basename(it[1])[:-5]}" in words]


def main():
    parser = common.arguments(__doc__)
    parser.add_argument("names", metavar="CRATE | CRATE/EDIT", nargs="*", help="try these alone")
    parser.add_argument("--gate", action="store_true", help="try the edits of must-fail too")
    parser.add_argument("--whole", action="store_true", help="check the whole crate")
    args = parser.parse_args()
    ends = {}
    with common.folder() as top:
        for it in ("crates", "crates.txt", "HANDLES"):
            subprocess.run(["cp", "-a", f"{TOP}/{it}", top], check=True)
        for name, edit in edits_of(TOP, args.names, args.gate):
            how, why = tried(edit, f"{top}/crates/{name}", args.whole)
            ends[how] = ends.get(how, 0) + 1
            print(f"{how:7} {name}/{os.path.basename(edit)[:-5]}: {why}", flush=True)
    print(f"{sum(ends.values())} edits: " + ", ".join(f"{n} {how}" for how, n in sorted(ends.items())))
    passed = ends.get("goal", 0) + ends.get("answer", 0)
    return common.finish(passed, sum(ends.values()) - passed)


if __name__ == "__main__":
    sys.exit(main())
