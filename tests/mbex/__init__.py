"""Helpers of the modules of mbex's tests: runs on the texts of a definition and an argument, and rows with their results."""
from programs import spelled

DEF, ARG = "the.def", "the.arg"


def ran(program, definition, argument, edition=2024, lint=False):
    """The run on these texts, which lints or expands."""
    return program.run([*["--lint"] * lint, DEF, ARG, str(edition)], {DEF: definition, ARG: argument})


def prints(program, table, row, run, want):
    """The run ends with that status, and prints that, with no line on standard error."""
    program.check(table, row, (run.status, run.out, run.err), (*want, ""))


def printed(argument, error, arm, trees):
    """The status, and the text that is printed for an argument."""
    end = len(argument.encode())
    rest = f"arm {arm}\nSUBTREE $$ 1@0..{end} 1@0..{end}\n{trees}"
    return (1, f"error: {error}\n{rest}") if error else (0, rest)


def worked(program, table, rows, edition=2024):
    """Rows of a definition, an argument, the error with its location or none, the arm, and the trees that are emitted."""
    for row in rows:
        definition, argument, error, arm, trees = row
        argument = spelled(argument)
        run = ran(program, spelled(definition), argument, edition)
        prints(program, table, row, run, printed(argument, error, arm, spelled(trees)))
