"""The verdict of each rule of a definition on an argument, as the program prints it."""
from mbex import prints, ran

# A definition and an argument, and the lines.
LINTS = (
    # At the start, the match can continue with a further name or with the word `as`.
    ("($($t:ident),* as $ty:ident) => {}", "as u32", "rule 0: ambiguous at 0\n"),
    ("($(a)? $(a)?) => {}", "a", "rule 0: several readings\n"),
    ("\n($($e:expr),* $(,)?) => {\n    $($e);* ;\n};\n", "\n    _,\n    const { 1 },\n", "rule 0: one reading\n"),
    # No round, and one empty round.
    ("($($v:vis),*) => {}", "", "rule 0: several readings\n"),
    # A fault of the template doesn't change the verdict.
    ("($x:ident) => {$($x)*}; ($x:ident) => {$x}", "a", "rule 0: one reading\nrule 1: one reading\n"),
    ("($x:ident = $t:tt;) => { pair ($t) $x }", "a = 1", "rule 0: stuck at 3\n"),
    ("($x:foo) => {}; ($($t:tt)*) => {}", "a", "rule 0: stuck at 0\nrule 1: one reading\n"),
    (
        "\n(-1) => {-1};\n(- 2) => {- 2};\n(- 3.0) => {- 3.0};\n(@$lit:literal) => {$lit}\n", "@--1.0",
        "rule 0: stuck at 0\n"
        "rule 1: stuck at 0\n"
        "rule 2: stuck at 0\n"
        "rule 3: stuck at 1\n",
    ),
    # The opening counts as a token.
    ("((a b)) => {}", "(a c)", "rule 0: stuck at 2\n"),
    ("($($a:ident)* $b:ident) => {}", "x", "rule 0: ambiguous at 0\n"),
    # Rules of all styles, and none.
    (
        "attr() (a) => {}; derive() (b) => {}; (c) => {}", "b",
        "rule 0: stuck at 0\n"
        "rule 1: one reading\n"
        "rule 2: stuck at 0\n",
    ),
    ("", "a", ""),
    # The first of two ambiguous offsets, in two digits.
    (
        "(a a a a a a a a a a $($x:ident)* b $($y:ident)* c) => {}", "a a a a a a a a a a b c",
        "rule 0: ambiguous at 10\n",
    ),
    (
        "(a) => {}; ($x:ident) => {${count($y)}}; ($x:tt $y:tt) => {}", "a",
        "rule 0: one reading\n"
        "rule 1: one reading\n"
        "rule 2: stuck at 1\n",
    ),
    ("attr() ([a]) => {}; derive() ([a b]) => {}", "[a c]", "rule 0: stuck at 2\nrule 1: stuck at 2\n"),
    # So does the closing.
    ("([$x:ident] b) => {}", "[x] c", "rule 0: stuck at 3\n"),
    # Rounds, and the separators between them.
    ("($( b $(x)? )x*) => {}", "b x b", "rule 0: one reading\n"),
    ("($(a)+*) => {}", "a *", "rule 0: one reading\n"),
    ("($(a),?) => {}", "a", "rule 0: one reading\n"),
    ("($(a),?) => {}", "a,", "rule 0: stuck at 1\n"),
    ("($(a);;*) => {}", "a", "rule 0: one reading\n"),
    ("($(a);;*) => {}", "a;;a", "rule 0: stuck at 1\n"),
    ("($(a)+) => {}", "", "rule 0: stuck at 0\n"),
    ("($(a),*) => {}", "a,", "rule 0: stuck at 2\n"),
    ("($(),*) => {}", "", "rule 0: several readings\n"),
    ("($(),*) => {}", ",", "rule 0: one reading\n"),
    ("(($(a)*) b) => {}", "(a a) c", "rule 0: stuck at 4\n"),
)

# A pattern, an argument, the argument's number of trees, and the number of unmatched trees.
LEFT = (
    ("$(a),?", "a,", 2, 1),
    ("$(a);;*", "a;;a", 4, 3),
    ("$(a),*", "a,", 2, 0),
    ("($(a)*) b", "(a a) c", 2, 1),
    ("$($t:ident),* as $ty:ident", "as u32", 2, 2),
    ("$($a:ident)* $b:ident", "x", 1, 1),
)

# Texts that come to no verdicts, and the status.
FAILURES = (
    ("() => {} x", "", 2),
    ("($()*) => {}", "", 2),
    ("(a ` b) => {}", "'", 4),
    ("", "'", 4),
)


def taking(count):
    """A pattern that matches this number of trees, and then stops."""
    return "$t:tt " * count + "$u:unknown"


def is_second_closer(program, first, second, argument):
    run = ran(program, f"({first}) => {{}}; ({second}) => {{}}", argument)
    return run.out.split("\n")[1:2] == ["arm 1"] and (run.status, run.err) == (1, "")


def are_left(program):
    """The rule is closer than an earlier rule with one more unmatched tree, and not closer than a later rule with one less."""
    for row in LEFT:
        pattern, argument, trees, left = row
        if left < trees:
            less = taking(trees - left - 1)
            program.check("LEFT", row, is_second_closer(program, less, pattern, argument), True)
        if left > 0:
            more = taking(trees - left + 1)
            program.check("LEFT", row, is_second_closer(program, pattern, more, argument), True)


def test(program):
    are_left(program)
    for row in LINTS:
        definition, argument, lines = row
        prints(program, "LINTS", row, ran(program, definition, argument, lint=True), (0, lines))
    for row in FAILURES:
        definition, argument, status = row
        run = ran(program, definition, argument, lint=True)
        program.check("FAILURES", row, (run.status, run.out), (status, ""))
