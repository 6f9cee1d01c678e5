#!/usr/bin/env python3
"""Uses mbe-lsp in real editors: Neovim's client and Emacs's eglot, without a window.

    tools/editors/real-clients.py [--mbe-lsp PROGRAM] [neovim] [emacs] [vscode]

Each editor opens a file, types a mistake, waits for its diagnostic, and takes the mistake back.
Then it asks for a hover, jumps to the rule of a call, and lists symbols. It expands the call, asks
for the origin of a token of the expansion, and inlines the call. It also asks for lenses, semantic
tokens and a quick fix, if it has them.

Each editor prints what it sees, and this script compares the output with the expected one. For
`vscode`, Node runs the extension with a stand-in for VS Code. An editor that isn't installed counts
as a failure. The last line is `N passed, M failed`.
"""
import json
import os
import shutil
import sys

sys.path.insert(0, os.path.dirname(os.path.dirname(os.path.abspath(__file__))))
import common  # noqa: E402

HERE = os.path.dirname(os.path.abspath(__file__))
TEXT = """macro_rules! two { () => { 2 };
    ($e:expr) => { [$e, $e] }; }
fn main() { let x = two!(1); }
"""
MESSAGE = "no rules expected"
INLINED = TEXT.replace("two!(1)", "[1, 1]")
LENSES = ["1 call in this crate", "unused", "expands 1 call"]
COMMA = "Accept a trailing comma in rule 2 of `two!`"
# The lines and the columns of tokens, from the token before each one; their lengths and types.
TOKENS = [0, 13, 3, 0, 0, 1, 5, 2, 1, 0, 0, 3, 4, 2, 0, 0, 12, 2, 1, 0, 0, 4, 2, 1, 0,
          1, 20, 3, 0, 0, 0, 5, 1, 8, 0]


def said(command, program, folder):
    """What an editor prints, by name, and its whole output."""
    path = f"{folder}/sample.rs"
    common.write(path, TEXT)
    env = {**os.environ, "MBE_LSP": program, "MBE_FILE": path, "HOME": folder,
           "XDG_CONFIG_HOME": folder, "XDG_STATE_HOME": folder, "XDG_DATA_HOME": folder}
    ran = common.run(command, env=env, stdin=common.subprocess.DEVNULL, cwd=folder, timeout=120)
    rows = [line.split("\t", 1) for line in (ran.stdout + "\n" + ran.stderr).split("\n")]
    found = {}
    for row in rows:
        if len(row) == 2:
            try:
                found[row[0]] = json.loads(row[1])
            except ValueError:
                pass
    return found, ran.stdout + ran.stderr


def neovim(program, folder):
    """What Neovim shows, and what it should show."""
    command = ["nvim", "--headless", "-u", "NONE", "-c", f"luafile {HERE}/neovim.lua"]
    found, output = said(command, program, folder)
    first = (found.get("diagnostics") or [[None] * 4])[0]
    expansion = found.get("expansion") or {}
    return output, [
        ("typed", found.get("typed", "").split("\n")[-1], TEXT.split("\n")[2].replace("1)", "fn)")),
        ("diagnostic", (first[:3], MESSAGE in str(first[3])), ([2, 25, 1], True)),
        ("hover", "Rule 2 of `two!`, line 2" in str(found.get("hover")), True),
        ("jump", found.get("jump"), [2, 4]),
        ("symbols", found.get("symbols"), ["two! rule 1: ()", "two! rule 2: ($e:expr)"]),
        ("expansion", (expansion.get("name"), str(expansion.get("expansion")).strip()),
         ("two", "[1, 1]")),
        ("origin", found.get("origin"), {"line": 2, "character": 25}),
        ("lenses", found.get("lenses"), LENSES),
        ("tokens", found.get("tokens"), TOKENS),
        ("action", found.get("action"), "Inline this call of `two!`"),
        ("inlined", found.get("inlined"), INLINED.rstrip("\n")),
        ("fix", found.get("fix"), COMMA),
        ("stopped", found.get("stopped"), True),
    ]


def emacs(program, folder):
    """What Emacs shows, and what it should show."""
    command = ["emacs", "--batch", "-f", "package-initialize", "-l", f"{HERE}/emacs.el"]
    found, output = said(command, program, folder)
    first = found.get("diagnostics") or [None, None]
    return output, [
        ("diagnostic", (first[0], MESSAGE in str(first[1])), (3, True)),
        ("hover", "Rule 2 of `two!`, line 2" in str(found.get("hover")), True),
        ("jump", found.get("jump"), 2),
        ("expansion", str(found.get("expansion")).strip(), "[1, 1]"),
        ("origin", found.get("origin"), [2, 25]),
        ("fix", found.get("fix"), COMMA),
        ("action", found.get("action"), "Inline this call of `two!`"),
        ("inlined", found.get("inlined"), INLINED),
        ("stopped", found.get("stopped"), True),
    ]


def vscode(program, folder):
    """What the extension of VS Code shows, and what it should show."""
    found, output = said(["node", f"{HERE}/vscode.js"], program, folder)
    first = (found.get("diagnostics") or [[None] * 6])[0]
    return output, [
        ("opened", found.get("opened"), 0),
        ("diagnostic", (first[:3], MESSAGE in str(first[3]), first[4]), ([2, 25, 0], True, "mbe")),
        ("undone", found.get("undone"), 0),
        ("hover", "Rule 2 of `two!`, line 2" in str(found.get("hover")), True),
        ("jump", found.get("jump"), {"line": 1, "character": 4}),
        ("references", found.get("references"), 1),
        ("renames", found.get("renames"), [[0, 13, "pair"], [2, 20, "pair"]]),
        ("renamed", found.get("renamed"), [20, "two"]),
        ("folds", found.get("folds"), 0),
        ("selection", found.get("selection"), {"line": 2, "character": 25}),
        ("symbols", found.get("symbols"), [["two!", ["rule 1: ()", "rule 2: ($e:expr)"]]]),
        ("actions", found.get("actions"), [["Inline this call of `two!`", "[1, 1]"]]),
        ("completion", found.get("completion"), ["two!"]),
        ("signatures", found.get("signatures"), ["two!()", "two!($e:expr)"]),
        ("lenses", found.get("lenses"), [[line, title] for line, title in zip((0, 0, 1), LENSES)]),
        ("expansion", found.get("expansion"), "// Expansion of two!\n[1, 1]\n"),
        ("followed", found.get("followed"), "// Expansion of two!\n[1, 1]\n"),
        ("origin", found.get("origin"), {"line": 2, "character": 25}),
        ("tokens", found.get("tokens"), TOKENS),
        ("part", found.get("part"), [2, 25, 1, 8, 0]),
        ("stopped", found.get("stopped"), True),
    ]


EDITORS = {"neovim": ("nvim", neovim), "emacs": ("emacs", emacs), "vscode": ("node", vscode)}


def main():
    parser = common.arguments(__doc__)
    parser.add_argument("--mbe-lsp", metavar="PROGRAM", type=os.path.abspath,
                        help="the program mbe-lsp; if left out, this checkout's, without proof")
    parser.add_argument("editors", metavar="EDITOR", nargs="*", choices=[*EDITORS, []])
    args = parser.parse_args()
    program = common.mbe_lsp(args.mbe_lsp)
    passed = failed = 0
    for name in args.editors or EDITORS:
        command, use = EDITORS[name]
        if not shutil.which(command):
            print(f"{name}: {command} isn't installed")
            failed += 1
            continue
        with common.folder() as folder:
            output, rows = use(program, folder)
        wrong = [(what, got, want) for what, got, want in rows if got != want]
        for what, got, want in wrong:
            print(f"{name}: {what}\n  wanted {want!r}\n  got    {got!r}")
        if wrong:
            print(output[-3000:])
        print(f"{name}: {len(rows) - len(wrong)} passed, {len(wrong)} failed")
        passed, failed = passed + len(rows) - len(wrong), failed + len(wrong)
    return common.finish(passed, failed)


if __name__ == "__main__":
    sys.exit(main())
