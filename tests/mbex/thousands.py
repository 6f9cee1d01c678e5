"""Definitions and arguments of thousands of tokens."""
from mbex import printed, prints, ran

# So many times `a = 1 + 2;`, which is six tokens.
STATEMENTS = 850

# The lines that are printed for a statement, and the byte of each.
STATEMENT = (
    ("  IDENT   a", 0),
    (
        "  PUNCH   : [alone] 0@34..35\n"
        "  SUBTREE () 0@37..38 0@37..38\n"
        "    LITERAL Integer 1",
        4,
    ),
    ("    PUNCH   + [alone]", 6),
    ("    LITERAL Integer 2", 8),
)

NAMES = 1_250

# A check that looked at each body twice from the repetition around it would never end; it may take so many seconds.
LEVELS, SECONDS = 256, 6


def line(text, start):
    """A line that ends with the location of that byte of the argument."""
    return f"{text} 1@{start}..{start + 1}\n"


def statements(program):
    """5,100 tokens of an argument are lexed, matched, bound, written and printed."""
    argument = "a = 1 + 2;" * STATEMENTS
    trees = "".join(line(text, 10 * number + place) for number in range(STATEMENTS) for text, place in STATEMENT)
    trees += f"  LITERAL Integer {STATEMENTS} 1@0..{len(argument)}\n"
    run = ran(program, "($($k:ident = $e:expr;)*) => {$($k: $e)* ${count($k)}}", argument)
    prints(program, "STATEMENTS", STATEMENTS, run, printed(argument, "", 0, trees))


def names(program):
    """5,000 tokens of a pattern bind 1,250 names, which a template writes."""
    argument = "a " * NAMES
    pattern = "".join(f"$x{number}:ident " for number in range(NAMES))
    template = "".join(f"$x{number} " for number in range(NAMES))
    trees = "".join(line("  IDENT   a", 2 * number) for number in range(NAMES))
    run = ran(program, f"({pattern}) => {{{template}}}", argument)
    prints(program, "NAMES", NAMES, run, printed(argument, "", 0, trees))


def levels(program):
    """Nested repetitions that can be empty are refused at once."""
    run = ran(program, "(" + ("$(" + "$v:vis " * 100) * LEVELS + ")*" * LEVELS + ") => {}", "")
    program.check("LEVELS", LEVELS, (run.status, run.out, run.seconds < SECONDS), (2, "", True))


def test(program):
    statements(program)
    names(program)
    levels(program)
