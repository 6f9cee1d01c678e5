"""Nested groups and repetitions: as deep as definitions may have them, one level deeper, and a million levels."""
from mbex import ran

# How many levels docs/DECISIONS.md gives.
LIMIT = 256

# The text of a definition before and after its levels, the opening and the closing of each level, and the content of the innermost.
NESTS = (
    ("(", "(", "$x:ident", ")", ") => {}"),
    ("(", "$(", "$x:ident", ")+", ") => {}"),
    ("($($x:ident)*) => {", "(", "a", ")", "}"),
    ("($($x:ident)*) => {", "$(", "$x", ")*", "}"),
)

# The opening and the closing of each level of the pattern, the template and the argument.
RULES = (
    ("(", ")", "(", ")"),
    ("$(", ")+", "", ""),
)


MILLION = 1_000_000

# Parts of a definition and of an argument a million levels deep, as above; the status, and the text on standard error.
DEEP = (
    (("(", "(", "$x:ident", ")", ") => {}"), ("", "", "a", "", ""), 5, "out of memory\n"),
    (("(", "$(", "$x:ident", ")+", ") => {}"), ("", "", "a", "", ""), 5, "out of memory\n"),
    (("() => {", "(", "a", ")", "}"), ("", "", "a", "", ""), 5, "out of memory\n"),
    (("() => {", "$(", "$x", ")*", "}"), ("", "", "a", "", ""), 5, "out of memory\n"),
    (("", "", "($t:tt) => {}", "", ""), ("", "(", "a", ")", ""), 0, ""),
)


def nested(opening, text, closing, levels):
    return opening * levels + text + closing * levels


def spelled(nest, levels):
    """The text with so many levels."""
    before, opening, text, closing, after = nest
    return before + nested(opening, text, closing, levels) + after


def ran_on(program, nest, levels):
    """The run on a definition with so many levels, and no argument."""
    return ran(program, spelled(nest, levels), "")


def is_limited(program, nest):
    """Whether the limit's levels are read, and one more is out of memory."""
    deeper = ran_on(program, nest, LIMIT + 1)
    return ran_on(program, nest, LIMIT).status in (0, 1) and deeper[:3] == (5, "", "out of memory\n")


def is_deepest(program, opening, closing, before, after):
    """Whether a rule of the largest number of levels matches, and emits the argument's word."""
    pattern = nested(opening, "$x:ident", closing, LIMIT)
    template = nested(opening, "$x", closing, LIMIT)
    run = ran(program, f"({pattern}) => {{{template}}}", nested(before, "a", after, LIMIT))
    return run.status == 0 and "IDENT   a 1@" in run.out


def test(program):
    for row in NESTS:
        program.check("NESTS", row, is_limited(program, row), True)
    for row in RULES:
        program.check("RULES", row, is_deepest(program, *row), True)
    for row in DEEP:
        definition, argument, status, line = row
        run = ran(program, spelled(definition, MILLION), spelled(argument, MILLION))
        program.check("DEEP", row, (run.status, run.err), (status, line))
