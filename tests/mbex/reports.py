"""Reports of a failed match: its first error, and the bindings where it ends."""
from mbex import printed, prints, ran, worked

RECOVERED = (
    (
        "\n($($e:expr_2021),* $(,)?) => {\n    $($e);* ;\n};\n", "\n    _,\n",
        "no rule matches input tokens at 1@5..6", 0, "  PUNCH   ; [alone] 0@44..45\n",
    ),
    (
        "\n(-1) => {-1};\n(- 2) => {- 2};\n(- 3.0) => {- 3.0};\n(@$lit:literal) => {$lit}\n", "@--1.0",
        "expected literal at 1@1..2", 3, "  IDENT   missing 0@72..75\n",
    ),
    ("($(a)? $(a)?) => {}", "a", "expected ident: `a` at 1@0..1", 0, ""),
    ("($e:expr) => {}", "r#let", "no rule matches input tokens at 1@0..5", 0, ""),
)

# The same, read in edition 2021.
RECOVERED_BEFORE_2024 = (
    (
        "\n($($e:expr),* $(,)?) => {\n    $($e);* ;\n};\n", "\n    _,\n", "no rule matches input tokens at 1@5..6", 0,
        "  PUNCH   ; [alone] 0@39..40\n",
    ),
    (
        "\n($($e:expr),* $(,)?) => {\n    $($e);* ;\n};\n", "\n    const { 1 },\n",
        "no rule matches input tokens at 1@5..10", 0, "  PUNCH   ; [alone] 0@39..40\n",
    ),
)

CLOSEST = (
    ("(a) => {A}; (b) => {B}", "c", "unexpected token in input at 1@0..1", 0, "  IDENT   A 0@8..9\n"),
    (
        "($x:ident b) => {A}; ($x:ident $y:ident c) => {B}", "p q", "expected ident: `c` at 1@0..3", 1,
        "  IDENT   B 0@47..48\n",
    ),
    ("(x) => {B}; ((a b c d)) => {A}", "(a x y z)", "expected ident: `x` at 1@0..1", 0, "  IDENT   B 0@8..9\n"),
    ("((a b)) => {A}; (x) => {B}", "(a c)", "unexpected token in input at 1@3..4", 0, "  IDENT   A 0@12..13\n"),
    ("attr() (a) => {A}; (b) => {B}", "c", "unexpected token in input at 1@0..1", 1, "  IDENT   B 0@27..28\n"),
    ("(a) => {A}; ($x:ident) => {B}", "1", "expected ident at 1@0..1", 1, "  IDENT   B 0@27..28\n"),
)

ERRORS = (
    (
        "($t:ty) => {[$t]}", "= a", "expected Ty at 1@0..1", 0,
        "  SUBTREE [] 0@12..13 0@15..16\n"
        "    IDENT   missing 0@14..15\n",
    ),
    ("(1) => {}", "a", "unexpected token in input at 1@0..1", 0, ""),
    ("(foo) => {}", "bar", "unexpected token in input at 1@0..3", 0, ""),
    ("(foo) => {}", "(a)", "expected ident: `foo` at 1@0..1", 0, ""),
    ("(foo) => {}", "", "expected ident: `foo` at 1@0..0", 0, ""),
    ('("s"u8) => {}', "", 'expected literal: `"s"u8` at 1@0..0', 0, ""),
    ("((a r#b)) => {}", "(a)", "expected ident: `r#b` at 1@0..3", 0, ""),
    ("(+) => {}", "'a", "unexpected token in input at 1@0..1", 0, ""),
    ("(+) => {}", "-", "expected punct: `+` at 1@0..1", 0, ""),
    ("(->) => {}", "- >", "expected punct: `->` at 1@0..1", 0, ""),
    ("(->) => {}", "a", "unexpected token in input at 1@0..1", 0, ""),
    ("($l:lifetime) => {}", "a", "expected lifetime at 1@0..1", 0, ""),
    ("(a b) => {}", "a", "expected ident: `b` at 1@0..1", 0, ""),
    ("($(a),*) => {}", "a,", "expected ident: `a` at 1@0..2", 0, ""),
)

# The bindings of the thread that failed last.
REPORTED = (
    (
        "($x:ident b) => {[$x]}", "p q", "unexpected token in input at 1@2..3", 0,
        "  SUBTREE [] 0@17..18 0@20..21\n"
        "    IDENT   p 1@0..1\n",
    ),
    (
        "($x:ident; $($y:ident 1),*) => {[$x] [$($y)*]}", "a; b 2", "unexpected token in input at 1@5..6", 0,
        "  SUBTREE [] 0@32..33 0@35..36\n"
        "    PUNCH   $ [alone] 0@34..35\n"
        "    IDENT   x 0@34..35\n"
        "  SUBTREE [] 0@37..38 0@44..45\n",
    ),
    # Two fail at the 1. The one in the later repetition is looked at first, so its error is reported; the other one's
    # variable is missing.
    (
        "($(a $x:ident)? $(a $y:lifetime)?) => {$x $y}", "a 1", "expected lifetime at 1@2..3", 0,
        "  IDENT   missing 0@40..41\n"
        "  PUNCH   $ [alone] 0@43..44\n"
        "  IDENT   y 0@43..44\n",
    ),
)

# Three threads or more meet before each of the repetitions, and the match fails. At the pattern's end the bindings of
# the first thread are emitted. If `a` fails, the bindings of the last one are: `Y` for each of its rounds, and the `$x`
# of a round.
MEETING = (
    ("($(a)* $(a $(: $x:ident)?)* c) => {$(Y $($x)?)*}", "a a a a c d", "YYYY"),
    ("($(a)* $(a $(: $x:ident)?)* c) => {$(Y $($x)?)*}", "a a a", "YY"),
    ("($(a $(: $x:ident)?)* $(a)* c) => {$(Y $($x)?)*}", "a a : p a a a c d", "YYpY"),
    ("($(a $(: $x:ident)?)* $(a)* c) => {$(Y $($x)?)*}", "a a a", "Y"),
)

# A missing binding in a metavariable expression.
MISSING = (
    ("($x:ident) => {$(${concat(a, $x)})* b}", "1", "expected ident at 1@0..1", 0, "  IDENT   b 0@36..37\n"),
    (
        "($x:ident) => {$($x)* ${count($x)} ${concat(a_, $x)}}", "1", "expected ident at 1@0..1", 0,
        "  LITERAL Integer 1 1@0..1\n"
        "  IDENT   a_missing 0@37..43\n",
    ),
    (
        "($x:tt) => {${concat(a, $x)} b}", "", "expected token tree at 1@0..0", 0,
        "  IDENT   a 0@14..20\n"
        "  IDENT   b 0@29..30\n",
    ),
    ("($x:ident) => {$(${ignore($x)})* b}", "1", "expected ident at 1@0..1", 0, "  IDENT   b 0@33..34\n"),
)

# A specifier, the name of the fragment in the error, and the lines for a missing fragment. `@` stands for the span of the
# variable's name.
DEFAULTS = (
    ("path", "Path", "    IDENT   missing @\n"),
    ("ty", "Ty", "    IDENT   missing @\n"),
    ("pat", "PatTop", "    IDENT   missing @\n"),
    ("pat_param", "Pat", "    IDENT   missing @\n"),
    ("stmt", "Stmt", "    PUNCH   ; [alone] @\n"),
    ("block", "Block", "    SUBTREE {} @ @\n"),
    ("meta", "MetaItem", ""),
    ("item", "Item", ""),
    ("expr", "Expr", "    IDENT   missing @\n"),
    ("expr_2021", "Expr", "    IDENT   missing @\n"),
    ("ident", "ident", "    IDENT   missing @\n"),
    ("tt", "token tree", ""),
    ("lifetime", "lifetime", "    PUNCH   ' [joint] @\n    IDENT   missing @\n"),
    ("literal", "literal", "    IDENT   missing @\n"),
)


def missing(opening, default):
    """The lines of brackets that open at that byte of the definition, with the default in them."""
    inner, close, end = opening + 1, opening + 3, opening + 4
    lines = default.replace("@", f"0@{opening + 2}..{close}")
    return f"  SUBTREE [] 0@{opening}..{inner} 0@{close}..{end}\n{lines}"


def defaults(program):
    for row in DEFAULTS:
        specifier, asked, default = row
        run = ran(program, f"($x:{specifier}) => {{[$x]}}", "")
        trees = missing(len(specifier) + 10, default)
        prints(program, "DEFAULTS", row, run, printed("", f"expected {asked} at 1@0..0", 0, trees))


def entries(program):
    """A fragment that the grammar doesn't find is reported at its first token, by the name of its entry point."""
    for row in DEFAULTS:
        specifier, asked, default = row
        if asked[0].isupper():
            run = ran(program, f"($x:{specifier}) => {{[$x]}}", "=")
            trees = missing(len(specifier) + 10, default)
            prints(program, "DEFAULTS, =", row, run, printed("=", f"expected {asked} at 1@0..1", 0, trees))


def are_meeting(program):
    for row in MEETING:
        run = ran(program, *row[:2])
        error, *lines = run.out.splitlines()
        names = "".join(line.split()[1] for line in lines[2:])
        program.check("MEETING", row, (run.status, error[:7], lines[:1], names), (1, "error: ", ["arm 0"], row[2]))


def test(program):
    are_meeting(program)
    worked(program, "RECOVERED", RECOVERED)
    worked(program, "RECOVERED_BEFORE_2024", RECOVERED_BEFORE_2024, 2021)
    worked(program, "CLOSEST", CLOSEST)
    worked(program, "ERRORS", ERRORS)
    worked(program, "REPORTED", REPORTED)
    worked(program, "MISSING", MISSING)
    defaults(program)
    entries(program)
