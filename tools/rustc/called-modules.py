#!/usr/bin/env python3
"""Compiles the crates of tests/expandm/called_modules.py with rustc, and their expansions:

    python3 tools/rustc/called-modules.py

The crates hold assertions about the values of their calls, which rustc evaluates. So a crate compiles only if each call finds the macro of
the row. A crate fails if rustc refuses it, or the text that the row expects of it. The last line is `N passed, M failed`.
"""
import os
import subprocess
import sys
import tempfile

sys.dont_write_bytecode = True
TOP = os.path.dirname(os.path.dirname(os.path.dirname(os.path.abspath(__file__))))
sys.path.insert(0, os.path.join(TOP, "tests"))
from expandm import called_modules, files_of  # noqa: E402


def refusal(files):
    """What rustc says of the crate with these files; empty if it compiles the crate."""
    with tempfile.TemporaryDirectory() as folder:
        for path, text in files.items():
            at = os.path.join(folder, path)
            os.makedirs(os.path.dirname(at), exist_ok=True)
            with open(at, "w", encoding="utf-8") as file:
                file.write(text)
        words = ["rustc", "--edition", "2021", "--crate-type", "lib", "--emit", "metadata", "--cap-lints", "allow", "src/lib.rs"]
        ran = subprocess.run(words, cwd=folder, capture_output=True, text=True, check=False)
        return "" if ran.returncode == 0 else ran.stderr


def crates_of(row):
    """The files of a row, and the files with the expansions of the row."""
    root, want, others, wants = row[:4]
    files = files_of(others.removesuffix("|")) if others else {}
    expansions = dict(zip(files, wants.split("|")))
    yield {"src/lib.rs": root, **files}
    yield {"src/lib.rs": want, **{path: files[path] if text == "-" else text for path, text in expansions.items()}}


def main():
    failed = 0
    rows = called_modules.COMPILED
    for row in rows:
        for files in crates_of(row):
            error = refusal(files)
            if error:
                failed += 1
                print(f"{files}\n{error}")
    print(f"{2 * len(rows) - failed} passed, {failed} failed")
    return int(failed > 0)


if __name__ == "__main__":
    sys.exit(main())
