"""The expansions of templates, with and without a fault: worked out by hand."""
from mbex import worked

# The expansions of rounds.
ROUNDS = (
    # Separators of each form come between the rounds, and jointness is as it is in the template.
    ("($($x:ident)*) => {$($x),+}", "a", "", 0, "  IDENT   a 1@0..1\n"),
    (
        "($($x:ident)* ; $y:ident) => {$($x $y)*}", "a b ; c", "", 0,
        "  IDENT   a 1@0..1\n"
        "  IDENT   c 1@6..7\n"
        "  IDENT   b 1@2..3\n"
        "  IDENT   c 1@6..7\n",
    ),
    (
        "($($x:ident)*) => {$([$x])and*}", "a b", "", 0,
        "  SUBTREE [] 0@21..22 0@24..25\n"
        "    IDENT   a 1@0..1\n"
        "  IDENT   and 0@26..29\n"
        "  SUBTREE [] 0@21..22 0@24..25\n"
        "    IDENT   b 1@2..3\n",
    ),
    (
        "($($x:ident)*) => {$($x)'f*}", "a b", "", 0,
        "  IDENT   a 1@0..1\n"
        "  PUNCH   ' [joint] 0@24..25\n"
        "  IDENT   f 0@25..26\n"
        "  IDENT   b 1@2..3\n",
    ),
    (
        "($($($x:ident)*);*) => {$($($x),*);*}", "a b ; ; c", "", 0,
        "  IDENT   a 1@0..1\n"
        "  PUNCH   , [joint] 0@31..32\n"
        "  IDENT   b 1@2..3\n"
        "  PUNCH   ; [joint] 0@34..35\n"
        "  PUNCH   ; [joint] 0@34..35\n"
        "  IDENT   c 1@8..9\n",
    ),
    # `?` writes a first round, also of several, and a value that is no list.
    ("($($x:ident)*) => {$($x),?}", "a b", "", 0, "  IDENT   a 1@0..1\n"),
    ("($x:ident) => {$($x)?}", "a", "", 0, "  IDENT   a 1@0..1\n"),
    # A name without a round, one that isn't bound, and none have no rounds.
    ("($($x:ident)?) => {$($x)* end}", "", "", 0, "  IDENT   end 0@26..29\n"),
    ("($($x:ident)*) => {$(1)*}", "a b", "", 0, ""),
    ("($($x:ident)*) => {$($y)*}", "a b", "", 0, ""),
    (
        "($($x:ident)*) => {$($x $y)*}", "a", "", 0,
        "  IDENT   a 1@0..1\n"
        "  PUNCH   $ [alone] 0@25..26\n"
        "  IDENT   y 0@25..26\n",
    ),
    # The bindings of nested repetitions.
    (
        "($($x:ident),* ; $y:tt) => {$($x)*}", "a, b ; c", "", 0,
        "  IDENT   a 1@0..1\n"
        "  IDENT   b 1@3..4\n",
    ),
    (
        "($($($x:ident)+);*) => {$([$($x)*])*}", "a b; c", "", 0,
        "  SUBTREE [] 0@26..27 0@33..34\n"
        "    IDENT   a 1@0..1\n"
        "    IDENT   b 1@2..3\n"
        "  SUBTREE [] 0@26..27 0@33..34\n"
        "    IDENT   c 1@5..6\n",
    ),
    (
        "($($($x:tt),*);*) => {$([$($x)*])*}", "a, b; c", "", 0,
        "  SUBTREE [] 0@24..25 0@31..32\n"
        "    IDENT   a 1@0..1\n"
        "    IDENT   b 1@3..4\n"
        "  SUBTREE [] 0@24..25 0@31..32\n"
        "    IDENT   c 1@6..7\n",
    ),
)

# Metavariable expressions: depths outside of all repetitions, counts by depth, texts of words and literals.
EXPRESSIONS = (
    (
        "($($($x:ident)*),*) => {$($(${index(1)} ${index()} $x)*)*}", "a b, c", "", 0,
        "  LITERAL Integer 0 1@0..6\n"
        "  LITERAL Integer 0 1@0..6\n"
        "  IDENT   a 1@0..1\n"
        "  LITERAL Integer 0 1@0..6\n"
        "  LITERAL Integer 1 1@0..6\n"
        "  IDENT   b 1@2..3\n"
        "  LITERAL Integer 1 1@0..6\n"
        "  LITERAL Integer 0 1@0..6\n"
        "  IDENT   c 1@5..6\n",
    ),
    (
        "() => {${len()} ${len(1)} ${index(2)}}", "", "", 0,
        "  LITERAL Integer 0 1@0..0\n"
        "  LITERAL Integer 0 1@0..0\n"
        "  LITERAL Integer 0 1@0..0\n",
    ),
    (
        "($($x:ident)*) => {$(${len(1)} ${index(1)} $x)*}", "a", "", 0,
        "  LITERAL Integer 0 1@0..1\n"
        "  LITERAL Integer 0 1@0..1\n"
        "  IDENT   a 1@0..1\n",
    ),
    ("($($($x:ident)*),*) => {${count($x, 2)}}", "a b, c", "", 0, "  LITERAL Integer 3 1@0..6\n"),
    (
        "($($($x:ident)*),*) => {$(${count($x)})*}", "a b, c", "", 0,
        "  LITERAL Integer 2 1@0..6\n"
        "  LITERAL Integer 1 1@0..6\n",
    ),
    (
        "($x:ident $($y:ident)?) => {${count($x)} ${count($y)}}", "a", "", 0,
        "  LITERAL Integer 1 1@0..1\n"
        "  LITERAL Integer 0 1@0..1\n",
    ),
    ('($x:ident) => {${concat($x, 12u8, "b")}}', "r#a", "", 0, "  IDENT   a12b 0@17..23\n"),
    (
        "($($x:ident)* ; $y:literal) => {$(${concat($x, $y)})*}", "a b ; 1", "", 0,
        "  IDENT   a1 0@36..42\n"
        "  IDENT   b1 0@36..42\n",
    ),
)

# How fragments are written.
FRAGMENTS = (
    # An expression of a sign and a literal, of one token or of one group needs no parentheses.
    (
        "($e:expr) => {$e}", "-1", "", 0,
        "  PUNCH   - [alone] 1@0..1\n"
        "  LITERAL Integer 1 1@1..2\n",
    ),
    ("($e:expr) => {$e}", "f", "", 0, "  IDENT   f 1@0..1\n"),
    (
        "($e:expr) => {$e}", "[a]", "", 0,
        "  SUBTREE [] 1@0..1 1@2..3\n"
        "    IDENT   a 1@1..2\n",
    ),
    (
        "($e:expr) => {$e}", "-1 + 2", "", 0,
        "  SUBTREE () 0@15..16 0@15..16\n"
        "    PUNCH   - [alone] 1@0..1\n"
        "    LITERAL Integer 1 1@1..2\n"
        "    PUNCH   + [alone] 1@3..4\n"
        "    LITERAL Integer 2 1@5..6\n",
    ),
    # The last punct of a fragment is alone, also where it is joint to the next one.
    (
        "($e:expr;) => {$e}", "a?;", "", 0,
        "  SUBTREE () 0@16..17 0@16..17\n"
        "    IDENT   a 1@0..1\n"
        "    PUNCH   ? [alone] 1@1..2\n",
    ),
    (
        "($s:stmt;) => {$s}", "a?;", "", 0,
        "  IDENT   a 1@0..1\n"
        "  PUNCH   ? [alone] 1@1..2\n",
    ),
    # A path gets `::` before its arguments where there is none.
    (
        "($p:path) => {$p}", "a::b<c<d>>", "", 0,
        "  IDENT   a 1@0..1\n"
        "  PUNCH   : [joint] 1@1..2\n"
        "  PUNCH   : [alone] 1@2..3\n"
        "  IDENT   b 1@3..4\n"
        "  PUNCH   : [joint] 1@0..10\n"
        "  PUNCH   : [alone] 1@0..10\n"
        "  PUNCH   < [alone] 1@4..5\n"
        "  IDENT   c 1@5..6\n"
        "  PUNCH   : [joint] 1@0..10\n"
        "  PUNCH   : [alone] 1@0..10\n"
        "  PUNCH   < [alone] 1@6..7\n"
        "  IDENT   d 1@7..8\n"
        "  PUNCH   > [joint] 1@8..9\n"
        "  PUNCH   > [alone] 1@9..10\n",
    ),
    (
        "($p:path) => {$p}", "a::<b>", "", 0,
        "  IDENT   a 1@0..1\n"
        "  PUNCH   : [joint] 1@1..2\n"
        "  PUNCH   : [joint] 1@2..3\n"
        "  PUNCH   < [alone] 1@3..4\n"
        "  IDENT   b 1@4..5\n"
        "  PUNCH   > [alone] 1@5..6\n",
    ),
)

# The partial expansions beside a fault.
FAULTS = (
    ("($x:ident) => {$(${count($x)})*}", "a", "Expand exceed limit at 1@0..1", 0, ""),
    (
        "($($x:ident)*) => {a $x b}", "c", "expected simple binding, found nested binding `x` at 0@22..23", 0,
        "  IDENT   a 0@19..20\n"
        "  IDENT   b 0@24..25\n",
    ),
    (
        "($($x:ident)*) => {${ignore($x)}}", "c", "expected simple binding, found nested binding `x` at 0@29..30", 0,
        "",
    ),
    # The first fault is reported.
    (
        "($($x:ident)*) => {[$x ${ignore($y)}]}", "c",
        "expected simple binding, found nested binding `x` at 0@21..22", 0, "  SUBTREE [] 0@19..20 0@36..37\n",
    ),
    ("($($x:ident)*) => {${ignore($y)} $x}", "c", "could not find binding y at 0@29..30", 0, ""),
    # If one round faults, the other rounds are emitted, and no separator follows the round that faults.
    (
        "($($x:tt)*) => {$(${concat(a, $x)});*}", "(d) e f",
        "metavariables of `${concat(..)}` must be of type `ident`, `literal` or `tt` at 0@31..32", 0,
        "  IDENT   a 0@20..26\n"
        "  IDENT   ae 0@20..26\n"
        "  PUNCH   ; [joint] 0@35..36\n"
        "  IDENT   af 0@20..26\n",
    ),
    (
        "($($x:tt)*) => {$(${concat(a, $x)});*}", "e (d)",
        "metavariables of `${concat(..)}` must be of type `ident`, `literal` or `tt` at 0@31..32", 0,
        "  IDENT   ae 0@20..26\n"
        "  PUNCH   ; [joint] 0@35..36\n"
        "  IDENT   a 0@20..26\n",
    ),
    (
        "($p:path) => {${concat(a, $p)}}", "b",
        "metavariables of `${concat(..)}` must be of type `ident`, `literal` or `tt` at 0@27..28", 0,
        "  IDENT   a 0@16..22\n",
    ),
    (
        "($t:tt) => {${concat(a, $t)}}", "+",
        "metavariables of `${concat(..)}` must be of type `ident`, `literal` or `tt` at 0@25..26", 0,
        "  IDENT   a 0@14..20\n",
    ),
)


def test(program):
    worked(program, "ROUNDS", ROUNDS)
    worked(program, "EXPRESSIONS", EXPRESSIONS)
    worked(program, "FRAGMENTS", FRAGMENTS)
    worked(program, "FAULTS", FAULTS)
