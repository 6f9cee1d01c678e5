"""Checks examples of the documents that `check-docs` can't run as blocks of commands.

- Options: each option of a command of `expandm`, or of a script of tools/ in Python, is in its help.
- Verdicts: a paragraph that begins "`RULES` on `ARGUMENT`:" and the lines `rule N: VERDICT` after it
  agree with `expandm --explain` on a call of a macro with these rules.
- Files: C compiles with bindings/c/mbe.h, Python and JSON are parsed, and a package for Cargo
  compiles, also without the library for C.
"""
import functools
import json
import os
import re
import shutil
import sys

sys.path.insert(0, os.path.dirname(os.path.dirname(os.path.abspath(__file__))))
import common  # noqa: E402
from common import TOP  # noqa: E402

FENCE = re.compile(r"^```(\w*)\n(.*?)^```", re.M | re.S)
COMMAND = re.compile(r"(?:\$ )?(?:(?:cargo|tools/)\s?)?(expandm) (.*)"
                     r"|(?:\$ )?(?:python3 )?(t(?:ools|ests)/[\w./-]+) (.*)")
OPTION = re.compile(r"(?<![\w-])--[a-z][a-z-]*")
VERDICTS = re.compile(r"^`([^`]+)` on `([^`]*)`:(?:.+\n)+\n((?:    rule \d+: .*\n(?:     .*\n)*)+)", re.M)
FLAT = re.compile(r"\w+|[^\w\s]")
NOTE = re.compile(r"rule (\d+) of `m!` (matches the call in several ways|matches|stops here|is ambiguous)")


# ---- options

def commands(text):
    """The commands of a page: lines of blocks of a shell or without a language, and code in lines."""
    blocks = [block for language, block in FENCE.findall(text) if language in ("sh", "console")]
    rest = FENCE.sub("", text)
    blocks += re.findall(r"^    (.*)$", rest, re.M)
    blocks += re.findall(r"(?<!`)`([^`\n]+)`(?!`)", rest)
    for line in "\n".join(blocks).split("\n"):
        found = COMMAND.match(line)
        if found:
            # What follows two spaces or a `#` explains the command; `rt` has options of its own.
            arguments = re.split(r"  +|[#|;>&]| rt ", found[2] or found[4] or "")[0]
            yield found[1] or found[3], arguments


@functools.cache
def options_of(script, expandm):
    """The options in the help of a program, or None if it has no help."""
    if script == "expandm":
        command = [expandm, "--help"]
    else:
        path = next((it for it in (f"{TOP}/{script}", f"{TOP}/{script}.py") if os.path.isfile(it)), None)
        if not path or "arguments(" not in common.read(path) and "ArgumentParser" not in common.read(path):
            return None
        command = [sys.executable, path, "--help"]
    return {*OPTION.findall(common.run(command).stdout)}


def lost_options(text, expandm):
    for script, arguments in sorted({*commands(text)}):
        named = {*OPTION.findall(arguments)}
        known = options_of(script, expandm) if named else None
        if known is not None:
            yield from (f"{script} has no option {it}" for it in sorted(named - known))


# ---- verdicts

def verdicts(rules, argument, expandm):
    """The verdict of each rule on an argument, in the words of `mbex --lint`, by `expandm`."""
    before = f"macro_rules! m {{ {rules} }}\nm!{{"
    with common.folder() as room:
        common.write(f"{room}/m.rs", f"{before}{argument}}}\n")
        ran = common.run([expandm, "--explain=2", "--json", "m.rs"], cwd=room)
    found = {}
    for diagnostic in common.reports(ran.stderr):
        note = NOTE.match(diagnostic["message"])
        if note:
            at = diagnostic["spans"][0]["byte_start"] - len(before)
            offset = len(FLAT.findall(argument[:at]))
            words = {"matches": "one reading", "stops here": f"stuck at {offset}",
                     "is ambiguous": f"ambiguous at {offset}"}
            found[int(note[1]) - 1] = words.get(note[2], "several readings")
    return found


def lost_verdicts(text, expandm):
    for rules, argument, block in VERDICTS.findall(text):
        said = {int(rule): verdict for rule, verdict in
                re.findall(r"^    rule (\d+): (\w+(?: \w+)*)", block, re.M)}
        got = verdicts(rules, argument, expandm)
        for rule in sorted(said.keys() | got.keys()):
            if said.get(rule) != got.get(rule):
                yield f"{rules} on {argument}: rule {rule} is {got.get(rule)}, not {said.get(rule)}"


# ---- files

def lost_json(text):
    for language, block in FENCE.findall(text):
        if language == "json":
            try:
                json.loads(block)
            except ValueError as it:
                yield f"no JSON: {it}"


def lost_files(room, skipped):
    """The files of a page that don't compile. `skipped` gets a line on each file that can't be
    tried."""
    for at, folders, names in os.walk(room):
        folders[:] = sorted(it for it in folders if it != "target" and not it.startswith("."))
        for name in sorted(names):
            command = compilation(f"{at}/{name}")
            if command and not shutil.which(command[0]):
                skipped(f"not compiled, without {command[0]}: {name}")
            elif command:
                env = {**os.environ, "DOCS_RS": "1"}  # the crates then link no library
                ran = common.run(command, cwd=at, env=env)
                if ran.returncode:
                    yield f"{name} doesn't compile:\n{ran.stdout}{ran.stderr}"


def compilation(path):
    """The command that compiles a file and makes no program, or None."""
    if path.endswith(".c"):
        return ["cc", "-fsyntax-only", "-Wall", "-Wextra", "-Werror", f"-I{TOP}/bindings/c", path]
    if path.endswith(".py"):
        return [sys.executable, "-c", "import ast, sys; ast.parse(open(sys.argv[1]).read())", path]
    if path.endswith("twice/Cargo.toml") and "mbe" in common.read(path):
        return ["cargo", "check", "--quiet", "--offline"]
    return None
