#!/usr/bin/env python3
"""Runs the tests of `expandm`, `mbex` and `mbe-lsp` as programs, over what `rt ci` built. From anywhere:

    python3 tests/run.py [--expandm PROGRAM] [--mbex PROGRAM] [--mbe-lsp PROGRAM] [--jobs N] [MODULE..]

Each file of tests/expandm, tests/mbex and tests/mbe_lsp is a module: tables of rows, and a function `test` that tries each row on the
program. A row that fails is printed, with the expected and the actual result. The last line is `N passed, M failed`; the exit status is 0
if
none failed. A missing program is a failure.
"""
import argparse
import concurrent.futures
import contextlib
import importlib
import io
import os
import sys

sys.dont_write_bytecode = True
HERE = os.path.dirname(os.path.abspath(__file__))
TOP = os.path.dirname(HERE)
sys.path.insert(0, HERE)
from programs import Program  # noqa: E402


def modules_of(name, words):
    """The modules of a program's tests, in order: the modules that are asked for, or all."""
    found = [file[:-3] for file in sorted(os.listdir(f"{HERE}/{name}")) if file.endswith(".py") and file != "__init__.py"]
    return [module for module in found if not words or f"{name}/{module}" in words]


def tried(name, path, module):
    """What a module of a program's tests prints, and how many of its rows passed and failed."""
    program = Program(path)
    with contextlib.redirect_stdout(io.StringIO()) as said:
        importlib.import_module(f"{name}.{module}").test(program)
    return f"{said.getvalue()}{name}/{module}: {program.passed} passed, {program.failed} failed", program.passed, program.failed


def tries(name, path, words):
    """The modules of a program's tests to try: program, path, and module."""
    modules = modules_of(name, words)
    if modules and not os.access(path, os.X_OK):
        print(f"{name}: no program at {path}: run rt ci first")
        return [None]
    return [(name, path, module) for module in modules]


def counts(given):
    """How many rows of all modules passed and failed. Modules run side by side; each prints its lines at its end, in order."""
    programs = (("expandm", given.expandm), ("mbex", given.mbex), ("mbe_lsp", given.mbe_lsp))
    found = [it for name, path in programs for it in tries(name, path, given.modules)]
    yield 0, found.count(None)
    with concurrent.futures.ProcessPoolExecutor(given.jobs) as pool:
        for text, passed, failed in pool.map(tried, *zip(*filter(None, found))) if any(found) else ():
            print(text, flush=True)
            yield passed, failed


def main():
    words = argparse.ArgumentParser(description=__doc__, formatter_class=argparse.RawDescriptionHelpFormatter)
    words.add_argument("--expandm", default=f"{TOP}/crates/expandm/out/expandm")
    words.add_argument("--mbex", default=f"{TOP}/crates/mbex/out/mbex")
    words.add_argument("--mbe-lsp", default=f"{TOP}/crates/mbe_lsp_main/out/mbe_lsp_main")
    words.add_argument("--jobs", type=int, default=os.cpu_count(), metavar="N", help="how many modules run side by side")
    words.add_argument("modules", nargs="*", metavar="MODULE", help="such as mbex/lints")
    given = words.parse_args()
    passed, failed = (sum(it) for it in zip(*counts(given)))
    print(f"{passed} passed, {failed} failed")
    return 0 if failed == 0 and passed > 0 else 1


if __name__ == "__main__":
    sys.exit(main())
