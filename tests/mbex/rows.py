"""Worked rows: a definition, an argument, and all that is printed of them."""
from mbex import worked

WORKED = (
    (
        "($($x:ident),*) => {$($x);*}", "a, b", "", 0,
        "  IDENT   a 1@0..1\n"
        "  PUNCH   ; [joint] 0@25..26\n"
        "  IDENT   b 1@3..4\n",
    ),
    (
        "\n($($e:expr),* $(,)?) => {\n    $($e);* ;\n};\n", "\n    _,\n    const { 1 },\n", "", 0,
        "  IDENT   _ 1@5..6\n"
        "  PUNCH   ; [joint] 0@36..37\n"
        "  SUBTREE () 0@34..35 0@34..35\n"
        "    IDENT   const 1@12..17\n"
        "    SUBTREE {} 1@18..19 1@22..23\n"
        "      LITERAL Integer 1 1@20..21\n"
        "  PUNCH   ; [alone] 0@39..40\n",
    ),
    (
        "\n($($e:expr_2021),* $(,)?) => {\n    $($e);* ;\n};\n",
        "\n    4,\n    \"literal\",\n    funcall(),\n    future.await,\n    break 'foo bar,\n", "", 0,
        "  LITERAL Integer 4 1@5..6\n"
        "  PUNCH   ; [joint] 0@41..42\n"
        "  LITERAL Str literal 1@12..21\n"
        "  PUNCH   ; [joint] 0@41..42\n"
        "  SUBTREE () 0@39..40 0@39..40\n"
        "    IDENT   funcall 1@27..34\n"
        "    SUBTREE () 1@34..35 1@35..36\n"
        "  PUNCH   ; [joint] 0@41..42\n"
        "  SUBTREE () 0@39..40 0@39..40\n"
        "    IDENT   future 1@42..48\n"
        "    PUNCH   . [alone] 1@48..49\n"
        "    IDENT   await 1@49..54\n"
        "  PUNCH   ; [joint] 0@41..42\n"
        "  SUBTREE () 0@39..40 0@39..40\n"
        "    IDENT   break 1@60..65\n"
        "    PUNCH   ' [joint] 1@66..67\n"
        "    IDENT   foo 1@67..70\n"
        "    IDENT   bar 1@71..74\n"
        "  PUNCH   ; [alone] 0@44..45\n",
    ),
    (
        "\n($($tt:tt)*) => {\n    $($tt)*\n};\n",
        "\nfn main() {\n    1;\n    1.0;\n    ((1,),).0.0;\n    let x = 1;\n}\n", "", 0,
        "  IDENT   fn 1@1..3\n"
        "  IDENT   main 1@4..8\n"
        "  SUBTREE () 1@8..9 1@9..10\n"
        "  SUBTREE {} 1@11..12 1@61..62\n"
        "    LITERAL Integer 1 1@17..18\n"
        "    PUNCH   ; [alone] 1@18..19\n"
        "    LITERAL Float 1.0 1@24..27\n"
        "    PUNCH   ; [alone] 1@27..28\n"
        "    SUBTREE () 1@33..34 1@39..40\n"
        "      SUBTREE () 1@34..35 1@37..38\n"
        "        LITERAL Integer 1 1@35..36\n"
        "        PUNCH   , [alone] 1@36..37\n"
        "      PUNCH   , [alone] 1@38..39\n"
        "    PUNCH   . [alone] 1@40..41\n"
        "    LITERAL Float 0.0 1@41..44\n"
        "    PUNCH   ; [alone] 1@44..45\n"
        "    IDENT   let 1@50..53\n"
        "    IDENT   x 1@54..55\n"
        "    PUNCH   = [alone] 1@56..57\n"
        "    LITERAL Integer 1 1@58..59\n"
        "    PUNCH   ; [alone] 1@59..60\n",
    ),
    ("($( b $(x)? )x*) => {}", "b x b", "", 0, ""),
    ("($x:ident) => {$($x)*}; ($x:ident) => {$x}", "a", "", 1, "  IDENT   a 1@0..1\n"),
    ("attr() () => {A}; () => {B}", "", "", 1, "  IDENT   B 0@25..26\n"),
    (
        "($($a:ident)* ; $($b:ident)*) => {$($a $b)*}", "p q r ; s t", "", 0,
        "  IDENT   p 1@0..1\n"
        "  IDENT   s 1@8..9\n"
        "  IDENT   q 1@2..3\n"
        "  IDENT   t 1@10..11\n",
    ),
    (
        "($($($x:ident)*),*) => {${count($x)} ${count($x, 1)}}", "a b, c", "", 0,
        "  LITERAL Integer 2 1@0..6\n"
        "  LITERAL Integer 3 1@0..6\n",
    ),
    ("($x:ident) => {${concat($x, _bar)}}", "foo", "", 0, "  IDENT   foo_bar 0@17..23\n"),
    (
        "($p:path) => {$p}", "Vec<u8>", "", 0,
        "  IDENT   Vec 1@0..3\n"
        "  PUNCH   : [joint] 1@0..7\n"
        "  PUNCH   : [alone] 1@0..7\n"
        "  PUNCH   < [alone] 1@3..4\n"
        "  IDENT   u8 1@4..6\n"
        "  PUNCH   > [alone] 1@6..7\n",
    ),
    (
        "($e:expr) => {$e * 2}", "1 + 2", "", 0,
        "  SUBTREE () 0@15..16 0@15..16\n"
        "    LITERAL Integer 1 1@0..1\n"
        "    PUNCH   + [alone] 1@2..3\n"
        "    LITERAL Integer 2 1@4..5\n"
        "  PUNCH   * [alone] 0@17..18\n"
        "  LITERAL Integer 2 0@19..20\n",
    ),
    ("($x:foo) => {}; ($($t:tt)*) => {}", "a", "", 1, ""),
)

LENGTHS = (
    (
        "($($x:ident)*) => {$(${index()} ${len()} $x)*}", "a b", "", 0,
        "  LITERAL Integer 0 1@0..3\n"
        "  LITERAL Integer 2 1@0..3\n"
        "  IDENT   a 1@0..1\n"
        "  LITERAL Integer 1 1@0..3\n"
        "  LITERAL Integer 2 1@0..3\n"
        "  IDENT   b 1@2..3\n",
    ),
    (
        "($($($x:ident)*),*) => {$($(${len(1)} ${len()} $x)*)*}", "a b, c", "", 0,
        "  LITERAL Integer 2 1@0..6\n"
        "  LITERAL Integer 2 1@0..6\n"
        "  IDENT   a 1@0..1\n"
        "  LITERAL Integer 2 1@0..6\n"
        "  LITERAL Integer 2 1@0..6\n"
        "  IDENT   b 1@2..3\n"
        "  LITERAL Integer 2 1@0..6\n"
        "  LITERAL Integer 1 1@0..6\n"
        "  IDENT   c 1@5..6\n",
    ),
    (
        "($($a:ident)* ; $($b:ident)*) => {$(${len()} $a $b)*}", "p q r ; s t", "", 0,
        "  LITERAL Integer 2 1@0..11\n"
        "  IDENT   p 1@0..1\n"
        "  IDENT   s 1@8..9\n"
        "  LITERAL Integer 2 1@0..11\n"
        "  IDENT   q 1@2..3\n"
        "  IDENT   t 1@10..11\n",
    ),
    ("($($x:ident)*) => {$(${len()} $x)?}", "a b", "", 0, "  LITERAL Integer 1 1@0..3\n  IDENT   a 1@0..1\n"),
    ("($($x:ident)*) => {$(${len()})*}", "a b", "", 0, ""),
    ("() => {${len()}}", "", "", 0, "  LITERAL Integer 0 1@0..0\n"),
)

ROUNDS = (
    ("($($x:ident),* ; $y:tt) => {$y}", "a, b ; c", "", 0, "  IDENT   c 1@7..8\n"),
    ("($(a)+*) => {}", "a *", "", 0, ""),
    ("($(a),?) => {}", "a", "", 0, ""),
    ("($(a);;*) => {}", "a", "", 0, ""),
    ("($(),*) => {}", ",", "", 0, ""),
    ("($($x:ident)?) => {$($x)? end}", "", "", 0, "  IDENT   end 0@26..29\n"),
    (
        "($($x:ident)*) => {$(${ignore($x)} 1)*}", "a b", "", 0,
        "  LITERAL Integer 1 0@35..36\n"
        "  LITERAL Integer 1 0@35..36\n",
    ),
    ("() => {${concat(f, n)}}", "", "", 0, "  IDENT   r#fn 0@9..15\n"),
    (
        "($($k:ident: $($v:literal)+);*) => {$($k [$($v)*])*}", "a: 1 2; b: 3", "", 0,
        "  IDENT   a 1@0..1\n"
        "  SUBTREE [] 0@41..42 0@48..49\n"
        "    LITERAL Integer 1 1@3..4\n"
        "    LITERAL Integer 2 1@5..6\n"
        "  IDENT   b 1@8..9\n"
        "  SUBTREE [] 0@41..42 0@48..49\n"
        "    LITERAL Integer 3 1@11..12\n",
    ),
    (
        "($([$x:ident $(, $y:ident)?])*) => {$($x $(($y))?)*}", "[a, b] [c]", "", 0,
        "  IDENT   a 1@1..2\n"
        "  SUBTREE () 0@43..44 0@46..47\n"
        "    IDENT   b 1@4..5\n"
        "  IDENT   c 1@8..9\n",
    ),
    (
        "($($v:vis $x:ident),*) => {$([$v] $x)*}", "pub a, b", "", 0,
        "  SUBTREE [] 0@29..30 0@32..33\n"
        "    IDENT   pub 1@0..3\n"
        "  IDENT   a 1@4..5\n"
        "  SUBTREE [] 0@29..30 0@32..33\n"
        "  IDENT   b 1@7..8\n",
    ),
    (
        "($($k:ident = $e:expr;)*) => {$($k $e)*}", "a = 1 + 2; b = 3;", "", 0,
        "  IDENT   a 1@0..1\n"
        "  SUBTREE () 0@36..37 0@36..37\n"
        "    LITERAL Integer 1 1@4..5\n"
        "    PUNCH   + [alone] 1@6..7\n"
        "    LITERAL Integer 2 1@8..9\n"
        "  IDENT   b 1@11..12\n"
        "  LITERAL Integer 3 1@15..16\n",
    ),
    ("($($x:ident)'a*) => {$($x)*}", "b 'a c", "", 0, "  IDENT   b 1@0..1\n  IDENT   c 1@5..6\n"),
    (
        "($($x:tt)true*) => {$($x)=>*}", "1 true 2", "", 0,
        "  LITERAL Integer 1 1@0..1\n"
        "  PUNCH   = [joint] 0@25..26\n"
        "  PUNCH   > [joint] 0@26..27\n"
        "  LITERAL Integer 2 1@7..8\n",
    ),
)

# A name that comes twice: the last binding, and rounds after rounds.
REPEATED_NAMES = (
    ("($x:ident $($x:ident)*) => {$x}", "a b c", "", 0, "  IDENT   a 1@0..1\n"),
    ("($($x:ident)* ; $x:ident) => {$x}", "a b ; c", "", 0, "  IDENT   c 1@6..7\n"),
    (
        "($($x:ident),* ; $($x:ident),*) => {$($x)*}", "a ; b, c", "", 0,
        "  IDENT   a 1@0..1\n"
        "  IDENT   b 1@4..5\n"
        "  IDENT   c 1@7..8\n",
    ),
    ("($($x:ident),* ; $($x:ident),*) => {$($x)*}", "; b", "", 0, ""),
    # Within a round too it is the last.
    ("($($x:ident $x:ident),*) => {$($x)*}", "a b, c d", "", 0, "  IDENT   b 1@2..3\n  IDENT   d 1@7..8\n"),
    (
        "($($($x:ident)* : $x:ident;)*) => {$($x)*}", "a b : c; : d;", "", 0,
        "  IDENT   c 1@6..7\n"
        "  IDENT   d 1@11..12\n",
    ),
)

# The closest rule is recovered: its match doesn't have exactly one reading, or its template faults.
RECOVERED = (
    ("($($v:vis),*) => {}", "", "unexpected token in input at 1@0..0", 0, ""),
    ("($x:ident) => {$($x)*}", "a", "Expand exceed limit at 1@0..1", 0, ""),
    (
        '($x:ident) => {${concat($x, "-")}}', "foo",
        "`${concat(..)}` is not generating a valid identifier at 0@17..23", 0,
        "  IDENT   __ra_concat_dummy 0@17..23\n",
    ),
    ("($($t:ident),* as $ty:ident) => {}", "as u32", "leftover tokens at 1@0..6", 0, ""),
    ("($(a),?) => {}", "a,", "leftover tokens at 1@0..2", 0, ""),
    ("($(a);;*) => {}", "a;;a", "leftover tokens at 1@0..4", 0, ""),
    ("($($a:ident)* $b:ident) => {}", "x", "leftover tokens at 1@0..1", 0, ""),
    ("($(),*) => {}", "", "unexpected token in input at 1@0..0", 0, ""),
    ("($($x:ident)*) => {$($x)+}", "", "unexpected token in input at 1@0..0", 0, ""),
    (
        "($($x:ident)*) => {${concat(a, $x)}}", "b", "expected simple binding, found nested binding `x` at 0@32..33",
        0, "  IDENT   a 0@21..27\n",
    ),
)

# The rule with the fewest unmatched trees is recovered, then the one with the most bindings, then the first.
CLOSEST = (
    ("(p $x:tt) => {$($x)*}; ($x:tt $y:tt) => {$($x)*}", "p q", "Expand exceed limit at 1@0..3", 1, ""),
    (
        "(p $y:ident $z:ident) => {$($y)*}; ($($x:ident)*) => {$x}", "p q r",
        "expected simple binding, found nested binding `x` at 0@55..56", 1, "",
    ),
    (
        "($($x:ident)*) => {$x}; (p $y:ident $z:ident) => {$($y)*}", "p q r",
        "expected simple binding, found nested binding `x` at 0@20..21", 0, "",
    ),
    ("($x:ident) => {$($x)*}; (b) => {B}", "a", "Expand exceed limit at 1@0..1", 0, ""),
    (
        "([] {}) => {A}; ([] [] {}) => {B}", "[] []", "unexpected token in input at 1@0..5", 1,
        "  IDENT   B 0@31..32\n",
    ),
    ("([] []) => {A}; ({}) => {B}", "[] ()", "leftover tokens at 1@0..5", 0, "  IDENT   A 0@12..13\n"),
    ("({}) => {B}; ([[] {}]) => {A}", "[[] () ()]", "leftover tokens at 1@0..10", 0, "  IDENT   B 0@9..10\n"),
    ("([{} a]) => {A}; ({}) => {B}", "[()]", "leftover tokens at 1@0..4", 0, "  IDENT   A 0@13..14\n"),
    ("attr() ([]) => {A}; ({}) => {B}", "()", "leftover tokens at 1@0..2", 1, "  IDENT   B 0@29..30\n"),
)

STOPS = (
    # If no thread fails, the first one at the pattern's end is reported.
    (
        "($x:ident) => {[$x]}", "a b", "leftover tokens at 1@0..3", 0,
        "  SUBTREE [] 0@15..16 0@18..19\n"
        "    IDENT   a 1@0..1\n",
    ),
    ("(->) => {}", "", "unexpected token in input at 1@0..0", 0, ""),
    (
        "($x:foo) => {[$x]}", "a", "leftover tokens at 1@0..1", 0,
        "  SUBTREE [] 0@13..14 0@16..17\n"
        "    PUNCH   $ [alone] 0@15..16\n"
        "    IDENT   x 0@15..16\n",
    ),
    ("($x:foo) => {}", "", "unexpected token in input at 1@0..0", 0, ""),
    ("(a) => {}", "a b", "leftover tokens at 1@0..3", 0, ""),
    ("([a]) => {}", "(a)", "leftover tokens at 1@0..3", 0, ""),
    ("([a]) => {}", "", "unexpected token in input at 1@0..0", 0, ""),
    ("((a)) => {}", "(a b)", "leftover tokens at 1@0..5", 0, ""),
    ("($(a),*) => {}", "a;", "leftover tokens at 1@0..2", 0, ""),
    (
        "($x:ident $($y:ident)* $z:ident) => {A $x}", "a b", "leftover tokens at 1@0..3", 0,
        "  IDENT   A 0@37..38\n"
        "  PUNCH   $ [alone] 0@40..41\n"
        "  IDENT   x 0@40..41\n",
    ),
)

FAULTS = (
    # The trees before and after a repetition past its limit are kept.
    (
        "($x:ident) => {a $($x)* b}", "a", "Expand exceed limit at 1@0..1", 0,
        "  IDENT   a 0@15..16\n"
        "  IDENT   b 0@24..25\n",
    ),
    # The limit comes before the faults of the rounds.
    ("($x:ident) => {$($x ${count($z)})*}", "a", "Expand exceed limit at 1@0..1", 0, ""),
    # `?` has one round at most, also where that faults.
    (
        "($($($x:ident)*);*) => {$([$x])? b}", "p; q",
        "expected simple binding, found nested binding `x` at 0@28..29", 0,
        "  SUBTREE [] 0@26..27 0@29..30\n"
        "  IDENT   b 0@33..34\n",
    ),
    # All rounds are written, though each faults.
    (
        "($($($x:ident)*;)*) => {$(Y $x Z)*}", "a ; ; ;",
        "expected simple binding, found nested binding `x` at 0@29..30", 0,
        "  IDENT   Y 0@26..27\n"
        "  IDENT   Z 0@31..32\n"
        "  IDENT   Y 0@26..27\n"
        "  IDENT   Z 0@31..32\n"
        "  IDENT   Y 0@26..27\n"
        "  IDENT   Z 0@31..32\n",
    ),
    (
        "($($x:ident)*) => {[$x]}", "a", "expected simple binding, found nested binding `x` at 0@21..22", 0,
        "  SUBTREE [] 0@19..20 0@22..23\n",
    ),
    ("($($x:ident)?) => {$x}", "", "expected simple binding, found empty binding `x` at 0@20..21", 0, ""),
    ("() => {${ignore($x)} a}", "", "could not find binding x at 0@17..18", 0, "  IDENT   a 0@21..22\n"),
    ("() => {${count($x)} a}", "", "could not find binding x at 1@0..0", 0, "  IDENT   a 0@20..21\n"),
    ("() => {${concat(a, $x)}}", "", "could not find binding x at 0@20..21", 0, "  IDENT   a 0@9..15\n"),
    (
        "($e:expr) => {${concat(a, $e)}}", "1",
        "metavariables of `${concat(..)}` must be of type `ident`, `literal` or `tt` at 0@27..28", 0,
        "  IDENT   a 0@16..22\n",
    ),
    (
        "($t:tt) => {${concat(a, $t)}}", "(b)",
        "metavariables of `${concat(..)}` must be of type `ident`, `literal` or `tt` at 0@25..26", 0,
        "  IDENT   a 0@14..20\n",
    ),
    ("($x:ident) => {$($x)+}", "a", "Expand exceed limit at 1@0..1", 0, ""),
)


def test(program):
    worked(program, "WORKED", WORKED)
    worked(program, "LENGTHS", LENGTHS)
    worked(program, "ROUNDS", ROUNDS)
    worked(program, "REPEATED_NAMES", REPEATED_NAMES)
    worked(program, "RECOVERED", RECOVERED)
    worked(program, "CLOSEST", CLOSEST)
    worked(program, "STOPS", STOPS)
    worked(program, "FAULTS", FAULTS)
