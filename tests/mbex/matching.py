"""Which arguments a pattern matches, what its variables are bound to, and what a `$` of a template means."""
from mbex import ran, worked
from programs import spelled

# Tables of a definition, an argument, no error, the rule, and the trees. A table whose name ends in NOT has a definition
# and an argument that the first rule doesn't match. This rule is the closest one.

# The first rule that matches is used.
EXPANDED = (
    ("(a) => {A}; (b) => {B}", "a", "", 0, "  IDENT   A 0@8..9\n"),
    ("(a) => {A}; (b) => {B}", "b", "", 1, "  IDENT   B 0@20..21\n"),
    ("($x:ident) => {A}; (b) => {B};", "b", "", 0, "  IDENT   A 0@15..16\n"),
    ("($x:foo) => {}; ($t:tt) => {$t}", "a", "", 1, "  IDENT   a 1@0..1\n"),
)

LEAVES = (
    ("(_) => {}", "_", "", 0, ""),
)

LEAVES_NOT = (
    ("(1) => {}", "2"),
    ("(foo) => {}", "fo"),
    ("(foo) => {}", "foo1"),
    ("(a) => {}", "+"),
    ("(+) => {}", "a"),
    ("(a) => {}", "(a)"),
)

# A sign and a float are two tokens.
SIGNS = (
    (
        "(- 3.0) => {- 3.0}", "-3.0", "", 0,
        "  PUNCH   - [alone] 0@12..13\n"
        "  LITERAL Float 3.0 0@14..17\n",
    ),
    (
        "(- 3.0) => {- 3.0}", "- 3.0", "", 0,
        "  PUNCH   - [alone] 0@12..13\n"
        "  LITERAL Float 3.0 0@14..17\n",
    ),
)

SIGNS_NOT = (
    ("(- 3.0) => {- 3.0}", "-3"),
    ("(- 3.0) => {- 3.0}", "- 3 . 0"),
    ("(- 3.0) => {- 3.0}", "-3.00"),
    ("(- 3.0) => {- 3.0}", "3.0"),
    ("(- 3.0) => {- 3.0}", "--3.0"),
)

GROUPS = (
    ("([a]) => {A}", "[a]", "", 0, "  IDENT   A 0@10..11\n"),
)

GROUPS_NOT = (
    ("([a]) => {A}", "(a)"),
    ("([a]) => {A}", "{a}"),
    ("([a]) => {A}", "a"),
    ("([a]) => {A}", "[]"),
    ("([a]) => {A}", "[a a]"),
    ("([a]) => {A}", "[b]"),
    ("([a]) => {A}", "[[a]]"),
    ("([a]) => {A}", "[a] [a]"),
)

NOT_WHOLE_NOT = (
    ("() => {}", "a"),
    ("() => {}", "()"),
    ("(a) => {}", ""),
    ("((a)) => {}", "()"),
    ("((a) b) => {}", "(a b)"),
    ("((a b)) => {}", "(a) b"),
    ("($x:tt) => {}", ""),
    ("($x:tt) => {}", "a b"),
    ("($x:tt $y:tt) => {}", "a"),
)

# Puncts match if they are adjacent.
PUNCTS = (
    ("(->) => {}", "->", "", 0, ""),
    ("(- >) => {}", "- >", "", 0, ""),
    ("(..=) => {}", "..=", "", 0, ""),
    ("(+;) => {}", "+;", "", 0, ""),
    ("(+;) => {}", "+ ;", "", 0, ""),
)

PUNCTS_NOT = (
    ("(- >) => {}", "->"),
    ("(->) => {}", "=>"),
    ("(..) => {}", "..="),
    ("(..=) => {}", ".. ="),
    ("(-) => {}", "->"),
)

# Puncts that are together are one tree.
GLUED = (
    (
        "($t:tt) => {$t}", "->", "", 0,
        "  PUNCH   - [joint] 1@0..1\n"
        "  PUNCH   > [alone] 1@1..2\n",
    ),
    (
        "($t:tt) => {$t}", "..=", "", 0,
        "  PUNCH   . [joint] 1@0..1\n"
        "  PUNCH   . [joint] 1@1..2\n"
        "  PUNCH   = [alone] 1@2..3\n",
    ),
    (
        "($a:tt $b:tt) => {$b $a}", "..+", "", 0,
        "  PUNCH   + [alone] 1@2..3\n"
        "  PUNCH   . [joint] 1@0..1\n"
        "  PUNCH   . [alone] 1@1..2\n",
    ),
)

GLUED_NOT = (
    ("($t:tt) => {$t}", "- >"),
    ("($a:tt $b:tt) => {}", "->"),
)

LIFETIMES = (
    (
        "($t:tt) => {$t}", "'a", "", 0,
        "  PUNCH   ' [joint] 1@0..1\n"
        "  IDENT   a 1@1..2\n",
    ),
    (
        "($t:tt) => {$t}", "'_", "", 0,
        "  PUNCH   ' [joint] 1@0..1\n"
        "  IDENT   _ 1@1..2\n",
    ),
)

LIFETIMES_NOT = (
    ("($t:tt) => {$t}", "'a b"),
    ("($t:tt $u:tt) => {}", "'a"),
)

ONE_TREE = (
    ("($t:tt) => {$t}", "_", "", 0, "  IDENT   _ 1@0..1\n"),
    (
        "($t:tt) => {$t}", "[a +;()]", "", 0,
        "  SUBTREE [] 1@0..1 1@7..8\n"
        "    IDENT   a 1@1..2\n"
        "    PUNCH   + [joint] 1@3..4\n"
        "    PUNCH   ; [alone] 1@4..5\n"
        "    SUBTREE () 1@5..6 1@6..7\n",
    ),
)

IDENTS = (
    ("($x:ident) => {$x}", "__", "", 0, "  IDENT   __ 1@0..2\n"),
)

# An unknown specifier matches nothing.
IDENTS_NOT = (
    ("($x:ident) => {$x}", "_"),
    ("($x:ident) => {$x}", "1"),
    ("($x:ident) => {$x}", "+"),
    ("($x:ident) => {$x}", "(a)"),
    ("($x:ident) => {$x}", "'a"),
    ("($x:ident) => {$x}", ""),
    ("($x:foo) => {}", "a"),
    ("($x:foo) => {}", "1"),
    ("($x:foo) => {}", "(a)"),
)

LITERALS = (
    ("($l:literal) => {$l}", "true", "", 0, "  IDENT   true 1@0..4\n"),
    (
        "($l:literal) => {$l}", "- false", "", 0,
        "  PUNCH   - [alone] 1@0..1\n"
        "  IDENT   false 1@2..7\n",
    ),
)

LITERALS_NOT = (
    ("($l:literal) => {$l}", ""),
    ("($l:literal) => {$l}", "-"),
    ("($l:literal) => {$l}", "a"),
    ("($l:literal) => {$l}", "-a"),
    ("($l:literal) => {$l}", "- truth"),
    ("($l:literal) => {$l}", "--1"),
    ("($l:literal) => {$l}", "+1"),
    ("($l:literal) => {$l}", "(1)"),
    ("($l:literal) => {$l}", "1 1"),
)

LIFETIME_FRAGMENTS = (
    (
        "($l:lifetime) => {$l}", "'a", "", 0,
        "  PUNCH   ' [joint] 1@0..1\n"
        "  IDENT   a 1@1..2\n",
    ),
    (
        "($l:lifetime) => {$l}", "'_", "", 0,
        "  PUNCH   ' [joint] 1@0..1\n"
        "  IDENT   _ 1@1..2\n",
    ),
    (
        "($l:lifetime) => {$l}", "'static", "", 0,
        "  PUNCH   ' [joint] 1@0..1\n"
        "  IDENT   static 1@1..7\n",
    ),
)

LIFETIME_FRAGMENTS_NOT = (
    ("($l:lifetime) => {$l}", ""),
    ("($l:lifetime) => {$l}", "a"),
    ("($l:lifetime) => {$l}", "'a b"),
    ("($l:lifetime) => {$l}", "('a)"),
)

# A hundred nested groups, and one more.
DEEP = (
    ("«101 (»a«101 )» => {}", "«100 (»a«100 )»", "", 0, ""),
)

DEEP_NOT = (
    ("«101 (»a«101 )» => {}", "«101 (»a«101 )»"),
)

NAMES = (
    (
        "($x:ident ($x:tt)) => {$x $x}", "a (b)", "", 0,
        "  IDENT   b 1@3..4\n"
        "  IDENT   b 1@3..4\n",
    ),
)

# Two dollars write the second, and the last dollar is a punct.
DOLLARS = (
    ("() => {$crate}", "", "", 0, "  IDENT   $crate 0@8..13\n"),
    ("() => {$$}", "", "", 0, "  PUNCH   $ [alone] 0@8..9\n"),
    (
        "() => {$$+}", "", "", 0,
        "  PUNCH   $ [joint] 0@8..9\n"
        "  PUNCH   + [alone] 0@9..10\n",
    ),
    (
        "() => {$$x}", "", "", 0,
        "  PUNCH   $ [alone] 0@8..9\n"
        "  IDENT   x 0@9..10\n",
    ),
    (
        "() => {$$$}", "", "", 0,
        "  PUNCH   $ [joint] 0@8..9\n"
        "  PUNCH   $ [alone] 0@9..10\n",
    ),
    ("(a $) => {A}", "a $", "", 0, "  IDENT   A 0@10..11\n"),
    ("([$] $x:ident) => {$x}", "[$] b", "", 0, "  IDENT   b 1@4..5\n"),
    (
        "() => {a $}", "", "", 0,
        "  IDENT   a 0@7..8\n"
        "  PUNCH   $ [alone] 0@9..10\n",
    ),
)

DOLLARS_NOT = (
    ("($crate) => {A}", "crate"),
    ("($crate) => {A}", "$crate"),
    ("($crate) => {A}", "$ crate"),
    ("(a $) => {A}", "a"),
)

EXPRESSIONS = (
    (
        "($true:tt $false:ident) => {$false $true}", "+ b", "", 0,
        "  IDENT   b 1@2..3\n"
        "  PUNCH   + [alone] 1@0..1\n",
    ),
    ("() => {${index()}}", "", "", 0, "  LITERAL Integer 0 1@0..0\n"),
)

# Names and literals match by their texts alone, and true and false are names.
TEXTS = (
    ("($x:ident) => {$x}", "r#b", "", 0, "  IDENT   r#b 1@0..3\n"),
    ("($l:literal) => {$l}", '"a b"', "", 0, "  LITERAL Str a b 1@0..5\n"),
    ("() => {$r#crate}", "", "", 0, "  IDENT   $crate 0@8..15\n"),
    ("($r#x:tt) => [$x]", "a", "", 0, "  IDENT   a 1@0..1\n"),
    (
        '($"true":tt) => {$true $"false"}', "a", "", 0,
        "  IDENT   a 1@0..1\n"
        "  PUNCH   $ [alone] 0@24..31\n"
        "  IDENT   false 0@24..31\n",
    ),
)

TEXTS_NOT = (
    ("(foo) => {}", '"foo"'),
)

FITTING = (
    EXPANDED, LEAVES, SIGNS, GROUPS, PUNCTS, GLUED, LIFETIMES, ONE_TREE, IDENTS, LITERALS, LIFETIME_FRAGMENTS,
    DEEP, NAMES, DOLLARS, EXPRESSIONS, TEXTS,
)

UNFIT = (
    LEAVES_NOT, SIGNS_NOT, GROUPS_NOT, NOT_WHOLE_NOT, PUNCTS_NOT, GLUED_NOT, LIFETIMES_NOT, IDENTS_NOT,
    LITERALS_NOT, LIFETIME_FRAGMENTS_NOT, DEEP_NOT, DOLLARS_NOT, TEXTS_NOT,
)


def unfit(program, rows):
    """The first rule of each row doesn't match, and is the closest one."""
    for row in rows:
        definition, argument = row
        run = ran(program, spelled(definition), spelled(argument))
        error, *rest = run.out.split("\n", 2)
        program.check("UNFIT", row, (run.status, error[:7], rest[:1], run.err), (1, "error: ", ["arm 0"], ""))


def test(program):
    for rows in FITTING:
        worked(program, "FITTING", rows)
    for rows in UNFIT:
        unfit(program, rows)
