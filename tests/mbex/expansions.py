"""Fragments that the program's grammar finds, and other expansions by their whole printed text."""
from mbex import prints, ran, worked

# A sign belongs to its literal, and a type is written as it is.
WRITTEN = (
    (
        "\n(-1) => {-1};\n(- 2) => {- 2};\n(- 3.0) => {- 3.0};\n(@$lit:literal) => {$lit}\n", "-1", "", 0,
        "  PUNCH   - [alone] 0@10..11\n"
        "  LITERAL Integer 1 0@11..12\n",
    ),
    (
        "\n(-1) => {-1};\n(- 2) => {- 2};\n(- 3.0) => {- 3.0};\n(@$lit:literal) => {$lit}\n", "- 1", "", 0,
        "  PUNCH   - [alone] 0@10..11\n"
        "  LITERAL Integer 1 0@11..12\n",
    ),
    (
        "\n(-1) => {-1};\n(- 2) => {- 2};\n(- 3.0) => {- 3.0};\n(@$lit:literal) => {$lit}\n", "-2", "", 1,
        "  PUNCH   - [alone] 0@25..26\n"
        "  LITERAL Integer 2 0@27..28\n",
    ),
    (
        "\n(-1) => {-1};\n(- 2) => {- 2};\n(- 3.0) => {- 3.0};\n(@$lit:literal) => {$lit}\n", "- 2", "", 1,
        "  PUNCH   - [alone] 0@25..26\n"
        "  LITERAL Integer 2 0@27..28\n",
    ),
    (
        "\n(-1) => {-1};\n(- 2) => {- 2};\n(- 3.0) => {- 3.0};\n(@$lit:literal) => {$lit}\n", "-3.0", "", 2,
        "  PUNCH   - [alone] 0@43..44\n"
        "  LITERAL Float 3.0 0@45..48\n",
    ),
    (
        "\n(-1) => {-1};\n(- 2) => {- 2};\n(- 3.0) => {- 3.0};\n(@$lit:literal) => {$lit}\n", "- 3.0", "", 2,
        "  PUNCH   - [alone] 0@43..44\n"
        "  LITERAL Float 3.0 0@45..48\n",
    ),
    (
        "\n(-1) => {-1};\n(- 2) => {- 2};\n(- 3.0) => {- 3.0};\n(@$lit:literal) => {$lit}\n", "@1", "", 3,
        "  LITERAL Integer 1 1@1..2\n",
    ),
    (
        "\n(-1) => {-1};\n(- 2) => {- 2};\n(- 3.0) => {- 3.0};\n(@$lit:literal) => {$lit}\n", "@1.0", "", 3,
        "  LITERAL Float 1.0 1@1..4\n",
    ),
    (
        "\n(-1) => {-1};\n(- 2) => {- 2};\n(- 3.0) => {- 3.0};\n(@$lit:literal) => {$lit}\n", "@-1", "", 3,
        "  PUNCH   - [alone] 1@1..2\n"
        "  LITERAL Integer 1 1@2..3\n",
    ),
    (
        "\n(-1) => {-1};\n(- 2) => {- 2};\n(- 3.0) => {- 3.0};\n(@$lit:literal) => {$lit}\n", "@-1.0", "", 3,
        "  PUNCH   - [alone] 1@1..2\n"
        "  LITERAL Float 1.0 1@2..5\n",
    ),
    (
        "($t:ty) => {$t}", "&'a [u8]", "", 0,
        "  PUNCH   & [alone] 1@0..1\n"
        "  PUNCH   ' [joint] 1@1..2\n"
        "  IDENT   a 1@2..3\n"
        "  SUBTREE [] 1@4..5 1@7..8\n"
        "    IDENT   u8 1@5..7\n",
    ),
)

# A definition and an argument, the status, and the output.
EXPANDED = (
    (
        "($x:ident = $t:tt;) => { pair ($t) $x }", "a = 1;", 0,
        "arm 0\n"
        "SUBTREE $$ 1@0..6 1@0..6\n"
        "  IDENT   pair 0@25..29\n"
        "  SUBTREE () 0@30..31 0@33..34\n"
        "    LITERAL Integer 1 1@4..5\n"
        "  IDENT   a 1@0..1\n",
    ),
    (
        "\n"
        "( struct $ident:ident ) => {\n"
        "    struct $ident {\n"
        "        map: ::std::collections::HashSet<()>,\n"
        "    }\n"
        "};\n",
        "\nstruct MyTraitMap2\n", 0,
        "arm 0\n"
        "SUBTREE $$ 1@0..20 1@0..20\n"
        "  IDENT   struct 0@34..40\n"
        "  IDENT   MyTraitMap2 1@8..19\n"
        "  SUBTREE {} 0@48..49 0@100..101\n"
        "    IDENT   map 0@58..61\n"
        "    PUNCH   : [alone] 0@61..62\n"
        "    PUNCH   : [joint] 0@63..64\n"
        "    PUNCH   : [alone] 0@64..65\n"
        "    IDENT   std 0@65..68\n"
        "    PUNCH   : [joint] 0@68..69\n"
        "    PUNCH   : [alone] 0@69..70\n"
        "    IDENT   collections 0@70..81\n"
        "    PUNCH   : [joint] 0@81..82\n"
        "    PUNCH   : [alone] 0@82..83\n"
        "    IDENT   HashSet 0@83..90\n"
        "    PUNCH   < [alone] 0@90..91\n"
        "    SUBTREE () 0@91..92 0@92..93\n"
        "    PUNCH   > [joint] 0@93..94\n"
        "    PUNCH   , [alone] 0@94..95\n",
    ),
    # Groups that are open end with the text.
    ("\n() => { { }\n", "", 0, "arm 0\nSUBTREE $$ 1@0..0 1@0..0\n  SUBTREE {} 0@9..10 0@11..12\n"),
    # Leaves match by their texts.
    ("(1) => {}", '"1"', 0, "arm 0\nSUBTREE $$ 1@0..3 1@0..3\n"),
    ("(foo) => {}", "r#foo", 0, "arm 0\nSUBTREE $$ 1@0..5 1@0..5\n"),
    # An unbound name is written back.
    ("() => {$y}", "", 0, "arm 0\nSUBTREE $$ 1@0..0 1@0..0\n  PUNCH   $ [alone] 0@8..9\n  IDENT   y 0@8..9\n"),
    # The last binding of a name is written.
    ("($x:ident $x:ident) => {$x}", "a b", 0, "arm 0\nSUBTREE $$ 1@0..3 1@0..3\n  IDENT   b 1@2..3\n"),
    # The last punct of a fragment is alone.
    (
        "($a:tt $b:tt) => {$a $b}", ";+", 0,
        "arm 0\n"
        "SUBTREE $$ 1@0..2 1@0..2\n"
        "  PUNCH   ; [alone] 1@0..1\n"
        "  PUNCH   + [alone] 1@1..2\n",
    ),
    # A variable of unknown kind never matches.
    ("($x:foo) => {}; (a) => {}", "a", 0, "arm 1\nSUBTREE $$ 1@0..1 1@0..1\n"),
    # No rule is of the style of the call.
    ("", "c", 1, "error: no rule matches input tokens at 1@0..1\narm none\nSUBTREE $$ 1@0..1 1@0..1\n"),
    (
        "attr() (c) => {b}", "c", 1,
        "error: no rule matches input tokens at 1@0..1\n"
        "arm none\n"
        "SUBTREE $$ 1@0..1 1@0..1\n",
    ),
    (
        "derive() (c) => {b}; attr() (c) => {b}", "c", 1,
        "error: no rule matches input tokens at 1@0..1\n"
        "arm none\n"
        "SUBTREE $$ 1@0..1 1@0..1\n",
    ),
)

# The same, of which mbe_tests refuses each request for memory.
ROWS = (
    (
        "($($x:ident),*) => {$($x);*}", "a, b", 0,
        "arm 0\n"
        "SUBTREE $$ 1@0..4 1@0..4\n"
        "  IDENT   a 1@0..1\n"
        "  PUNCH   ; [joint] 0@25..26\n"
        "  IDENT   b 1@3..4\n",
    ),
    (
        "\n($($e:expr),* $(,)?) => {\n    $($e);* ;\n};\n", "\n    _,\n    const { 1 },\n", 0,
        "arm 0\n"
        "SUBTREE $$ 1@0..25 1@0..25\n"
        "  IDENT   _ 1@5..6\n"
        "  PUNCH   ; [joint] 0@36..37\n"
        "  SUBTREE () 0@34..35 0@34..35\n"
        "    IDENT   const 1@12..17\n"
        "    SUBTREE {} 1@18..19 1@22..23\n"
        "      LITERAL Integer 1 1@20..21\n"
        "  PUNCH   ; [alone] 0@39..40\n",
    ),
    (
        "\n(-1) => {-1};\n(- 2) => {- 2};\n(- 3.0) => {- 3.0};\n(@$lit:literal) => {$lit}\n", "@--1.0", 1,
        "error: expected literal at 1@1..2\n"
        "arm 3\n"
        "SUBTREE $$ 1@0..6 1@0..6\n"
        "  IDENT   missing 0@72..75\n",
    ),
    (
        "\n(-1) => {-1};\n(- 2) => {- 2};\n(- 3.0) => {- 3.0};\n(@$lit:literal) => {$lit}\n", "@-1", 0,
        "arm 3\n"
        "SUBTREE $$ 1@0..3 1@0..3\n"
        "  PUNCH   - [alone] 1@1..2\n"
        "  LITERAL Integer 1 1@2..3\n",
    ),
    (
        "($($a:ident)* ; $($b:ident)*) => {$($a $b)*}", "p q r ; s t", 0,
        "arm 0\n"
        "SUBTREE $$ 1@0..11 1@0..11\n"
        "  IDENT   p 1@0..1\n"
        "  IDENT   s 1@8..9\n"
        "  IDENT   q 1@2..3\n"
        "  IDENT   t 1@10..11\n",
    ),
    (
        "($($($x:ident)*),*) => {${count($x)} ${count($x, 1)}}", "a b, c", 0,
        "arm 0\n"
        "SUBTREE $$ 1@0..6 1@0..6\n"
        "  LITERAL Integer 2 1@0..6\n"
        "  LITERAL Integer 3 1@0..6\n",
    ),
    (
        "($x:ident) => {${concat($x, _bar)}}", "foo", 0,
        "arm 0\n"
        "SUBTREE $$ 1@0..3 1@0..3\n"
        "  IDENT   foo_bar 0@17..23\n",
    ),
    (
        '($x:ident) => {${concat($x, "-")}}', "foo", 1,
        "error: `${concat(..)}` is not generating a valid identifier at 0@17..23\n"
        "arm 0\n"
        "SUBTREE $$ 1@0..3 1@0..3\n"
        "  IDENT   __ra_concat_dummy 0@17..23\n",
    ),
    (
        "($x:ident = $t:tt;) => { pair ($t) $x }", "a = 1;", 0,
        "arm 0\n"
        "SUBTREE $$ 1@0..6 1@0..6\n"
        "  IDENT   pair 0@25..29\n"
        "  SUBTREE () 0@30..31 0@33..34\n"
        "    LITERAL Integer 1 1@4..5\n"
        "  IDENT   a 1@0..1\n",
    ),
)

# The texts that each kind of fragment matches whole, by the Rust Reference. No two entry points of the grammar match
# the same texts. Before 2021 `pat` matches no `|`.
TAKEN = {
    "path": ("a::b",),
    "ty": ("a::b", "&a"),
    "pat": ("a::b", "&a", "1", "a | b"),
    "pat_param": ("a::b", "&a", "1"),
    "expr": ("a::b", "&a", "1", "a | b", "1 + 2", "a = 1", "{ 1 }"),
    "expr_2021": ("a::b", "&a", "1", "a | b", "1 + 2", "a = 1", "{ 1 }"),
    "stmt": ("a::b", "&a", "1", "a | b", "1 + 2", "a = 1", "{ 1 }", "let x = 1", "struct S;"),
    "block": ("{ 1 }",),
    "meta": ("a::b", "a = 1"),
    "item": ("struct S;",),
    "vis": ("",),
}
TAKEN_BEFORE_2021 = {"pat": TAKEN["pat_param"]}
TEXTS = ("", "a::b", "&a", "1", "a | b", "1 + 2", "a = 1", "{ 1 }", "let x = 1", "struct S;")
BY_EDITION = ((2015, TAKEN_BEFORE_2021), (2018, TAKEN_BEFORE_2021), (2021, TAKEN), (2024, TAKEN))


def are_taken(program):
    """Each kind matches its texts, and none of the others."""
    for edition, taken in BY_EDITION:
        for specifier, texts in taken.items():
            for text in TEXTS:
                run = ran(program, f"($x:{specifier}) => {{}}", text, edition)
                row = (edition, specifier, text)
                program.check("TAKEN", row, (run.status, run.err), (0 if text in texts else 1, ""))


def are_printed(program, table, rows):
    for row in rows:
        definition, argument, status, out = row
        prints(program, table, row, ran(program, definition, argument), (status, out))


def test(program):
    worked(program, "WRITTEN", WRITTEN)
    are_taken(program)
    are_printed(program, "EXPANDED", EXPANDED)
    are_printed(program, "ROWS", ROWS)
