#!/usr/bin/env python3
"""Plants mutants that no contract refuses, and runs the tests, which must refuse each of them.

The script applies each file of tools/planted/CRATE to a copy of the repository. Then it runs the
tests that the file's line `tests:` names:

- `tests: CRATE::MODULE`: that module of the tests of the crate, by `rt try --test`, without
  proof.
- `tests: PROGRAM/MODULE`: that module of tests/PROGRAM, on a program that is built without proof.

The other lines are as in tools/edits. A mutant takes half a minute to a minute, and ends as one of
these. Only the first passes:

refused   Tests of that module fail, or don't end within 20 seconds.
passes    Every test of the module passes: a row is missing.
bad       The mutant can't be planted, or doesn't compile.
"""
import os
import re
import shutil
import subprocess
import sys

sys.path.insert(0, os.path.dirname(os.path.dirname(os.path.abspath(__file__))))
import common  # noqa: E402
from common import TOP  # noqa: E402
from edits import texts_of, tried  # noqa: E402


def tests_of(body):
    """The crate and the module whose tests refuse the mutant, with `::` between them; or the program and its module, with `/`."""
    return re.search(r"(?m)^tests: (\w+?)(::|/)([\w:]+)$", common.read(body)).groups()


def plant(body, crate):
    """Writes the mutant, and returns the original texts by file; or else what is wrong with the mutant."""
    texts, _ = found = texts_of(body, crate)
    if texts is None:
        return found
    right = {}
    for file, text in texts.items():
        right[file] = common.read(f"{crate}/{file}")
        common.write(f"{crate}/{file}", text)
    return right, None


def output_of(command, **how):
    """The status of a run, and its output and errors as one text."""
    ran = common.run(command, stdin=subprocess.DEVNULL, capture_output=False,
                     stdout=subprocess.PIPE, stderr=subprocess.STDOUT, **how)
    return ran.returncode, ran.stdout


def refusal(crate, module):
    """How a planted mutant ends, by the tests of a module."""
    _, said = output_of(["rt", "try", "--test", "--seconds", "20"], cwd=crate)
    ends = re.findall(r"(?m)^test (\S+) \.\.\. (\w+)$(?:\n    checked: (no-answer))?", said)
    if not ends:
        return "bad", error_in(said)
    failed = [test + (" (no answer)" if late else "") for test, end, late in ends if end != "ok" and test.startswith(f"{module}::")]
    name = os.path.basename(crate)
    if failed:
        return "refused", ", ".join(f"{name}::{it}" for it in failed)
    return "passes", f"all tests of {name}::{module}"


def error_in(said):
    return (re.findall(r"(?m)^.*error.*$", said) or said.split("\n"))[0][:200]


def program_refusal(top, program, module):
    """How a planted mutant ends, by a module of the tests of a program that is built without proof."""
    built = f"{top}/{program}"
    env = {**os.environ, "CRATE": program, "ARGS": common.SAMPLE_ARGS[program]}
    status, said = output_of(["sh", f"{TOP}/tools/speed/bench/unproved.sh", top, built], env=env)
    if status != 0:
        return "bad", error_in(said)
    tests = [sys.executable, f"{TOP}/tests/run.py"]
    status, said = output_of([*tests, f"--{program}", built, f"{program}/{module}"])
    last = said.rstrip().split("\n")[-1]
    if not re.fullmatch(r"\d+ passed, \d+ failed", last):
        return "bad", last[:200]
    return "refused" if status != 0 else "passes", f"{program}/{module}: {last}"


def end_of(top, crate, body):
    right, wrong = plant(body, f"{top}/crates/{crate}")
    if right is None:
        return "bad", wrong
    tests, mark, module = tests_of(body)
    try:
        if mark == "/":
            return program_refusal(top, tests, module)
        return refusal(f"{top}/crates/{tests}", module)
    finally:
        for file, text in right.items():
            common.write(f"{top}/crates/{crate}/{file}", text)


def bodies_of(words):
    folder = f"{TOP}/tools/planted"
    found = [(crate, f"{folder}/{crate}/{it}") for crate in sorted(os.listdir(folder)) for it in sorted(os.listdir(f"{folder}/{crate}"))]
    return [it for it in found if not words or it[0] in words or f"{it[0]}/{os.path.basename(it[1])[:-5]}" in words]


def main():
    parser = common.arguments(__doc__)
    parser.add_argument("names", metavar="CRATE | CRATE/BODY", nargs="*", help="plant these alone")
    parser.add_argument("--prove", action="store_true",
                        help="ask the prover too, with what earlier checks proved, and print what "
                             "it says: a body that it refuses at a goal needs no row")
    args = parser.parse_args()
    ends = {}
    with common.folder() as top:
        ignore = None if args.prove else shutil.ignore_patterns("out")
        shutil.copytree(f"{TOP}/crates", f"{top}/crates", ignore=ignore)
        for it in ("crates.txt", "HANDLES"):
            shutil.copy2(f"{TOP}/{it}", top)
        for crate, body in bodies_of(args.names):
            how, why = end_of(top, crate, body)
            ends[how] = ends.get(how, 0) + 1
            if args.prove:
                why += "; the prover: " + ": ".join(tried(body, f"{top}/crates/{crate}", False))
            print(f"{how:7} {crate}/{os.path.basename(body)[:-5]}: {why}", flush=True)
    print(f"{sum(ends.values())} bodies: " + ", ".join(f"{n} {how}" for how, n in sorted(ends.items())))
    passed = ends.get("refused", 0)
    return common.finish(passed, sum(ends.values()) - passed)


if __name__ == "__main__":
    sys.exit(main())
