"""Definitions that are parsed, and the faults of refused definitions."""
import tempfile

from mbex.runs import Texts

# A definition, and how many rules it has, which `--lint` shows by a line for each.
READ = (
    (
        "unsafe attr(x) ($a:ident $b:literal [c] 1 + $($d:expr),* $($e:ty)'f + $($g:tt)1? $(h)=>* $(i)* "
        "$(k)and* $crate) => {$a $j [c] 1 + $($d $e);* $($g)? ${ignore($a)} ${index()} ${len(1)} "
        "${count($d)} ${count($e, 1)} ${concat(a, $a, 1)} $$ $crate $}",
        1,
    ),
    # Rules have their parts.
    ("", 0),
    ("() => {}", 1),
    ("() => {};", 1),
    ("[] => (); {} => []", 2),
    ("() = > {}", 1),
    ("($x:ident $y:tt $z:foo) => {}", 1),
    ("($_:ident) => {}", 1),
    ("($) => {}", 1),
    ("() => {$}", 1),
    ("() => {$$}", 1),
    ("($crate) => {}", 1),
    ("($x:ident) => {", 1),
    ("($x:ident) => {$", 1),
    ("($x:ident) => {$x", 1),
    ("($x:ident) => {$x}", 1),
    ("() => {a [${len()}] ${index(0)} $x}", 1),
    ("() => {${len() $[a]}}", 1),
    ("unsafe attr() () => {}", 1),
)

# A definition, and its fault. No rule comes before it; which rules are kept before one, mbe_tests shows.
REFUSED = (
    ("x", "expected subtree"),
    (";", "expected subtree"),
    ("() => x", "expected subtree"),
    ("()", "expected `=`"),
    ("() {}", "expected `=`"),
    ("() > {}", "expected `=`"),
    ("() =", "expected `>`"),
    ("() = {}", "expected `>`"),
    ("() == {}", "expected `>`"),
    # Variables of a pattern have a specifier.
    ("($x) => {}", "missing fragment specifier"),
    ("($x:) => {}", "missing fragment specifier"),
    ("($x:_) => {}", "missing fragment specifier"),
    ("($x:1) => {}", "missing fragment specifier"),
    ("($x ident) => {}", "missing fragment specifier"),
    ("($x::ident) => {}", "missing fragment specifier"),
    ("([a {$x}]) => {}", "missing fragment specifier"),
    # Tokens after a dollar.
    ("($1) => {}", "expected ident"),
    ("($+) => {}", "expected ident"),
    ("() => {$1}", "expected ident"),
    ("() => {[$+]}", "expected ident"),
    ("($[a]) => {}", "expected `$()` repetition or `${}` expression"),
    ("() => {$[a]}", "expected `$()` repetition or `${}` expression"),
    ("($$) => {}", "`$$` is not allowed on the pattern side"),
    ("([$$]) => {}", "`$$` is not allowed on the pattern side"),
    ("(${len()}) => {}", "`${}` metavariable expressions are not allowed in matchers"),
    ("(a {${}}) => {}", "`${}` metavariable expressions are not allowed in matchers"),
    ("($$ $1) => {$[a]}", "`$$` is not allowed on the pattern side"),
    ("($1 $$) => {$[a]}", "expected ident"),
    ("($x:ident) => {$[a] $1}", "expected `$()` repetition or `${}` expression"),
    # Groups of a rule are taken before they are read.
    ("($x)", "expected `=`"),
    ("($x:path) =", "expected `>`"),
    ("($(a)*) =>", "expected subtree"),
    ("($$) => x", "expected subtree"),
    ("(", "expected `=`"),
    ("($", "expected `=`"),
    ("($x", "expected `=`"),
    ("($x:", "expected `=`"),
    ("($x:i", "expected `=`"),
    ("($x:id", "expected `=`"),
    ("($x:ide", "expected `=`"),
    ("($x:iden", "expected `=`"),
    ("($x:ident", "expected `=`"),
    ("($x:ident)", "expected `=`"),
    ("($x:ident) ", "expected `=`"),
    ("($x:ident) =", "expected `>`"),
    ("($x:ident) => ", "expected subtree"),
    # The first fault is reported: one of the pattern before one of the template, and reading stops at the first of all.
    ("($x) x", "expected `=`"),
    ("($x) => {$1}", "missing fragment specifier"),
    ("(a $x $$) => {}", "missing fragment specifier"),
    # Repetitions without an end.
    ("($(a)) => {}", "invalid repeat"),
    ("($($x)) => {}", "invalid repeat"),
    ("($(a)b c*) => {}", "invalid repeat"),
    # A suffix is read before its body, and the body before the tokens after the suffix.
    ("($($x)*) => {}", "missing fragment specifier"),
    ("($($x:_),*) => {}", "missing fragment specifier"),
    ("($($$)b c*) => {}", "invalid repeat"),
    ("($($1)* $$) => {}", "expected ident"),
    ("($($$)* $1) => {}", "`$$` is not allowed on the pattern side"),
    ("($(a)* $x) => {}", "missing fragment specifier"),
    ("($x $(a)) => {}", "missing fragment specifier"),
    ("($(a) $x) => {}", "invalid repeat"),
    ("($($(a))*) => {}", "invalid repeat"),
    ("($($([$$])*)*) => {}", "`$$` is not allowed on the pattern side"),
    ("($(${len()})*) => {}", "`${}` metavariable expressions are not allowed in matchers"),
    ("() => {$($[a])* $1}", "expected `$()` repetition or `${}` expression"),
    ("() => {$(a $1)* $[a]}", "expected ident"),
    ("($(a)) => {$[a]}", "invalid repeat"),
    ("($()*) => {$[a]}", "expected `$()` repetition or `${}` expression"),
    ("() => {[{${concat(a)}}]}", "invalid metavariable expression"),
    ("() => {${} $[a]}", "invalid metavariable expression"),
    ("() => {$[a] ${}}", "expected `$()` repetition or `${}` expression"),
    ("() => {${len()} $[a]}", "expected `$()` repetition or `${}` expression"),
    ("($x) => {${}}", "missing fragment specifier"),
    ("() => {${}} x", "invalid metavariable expression"),
    ("(${}) => {}", "`${}` metavariable expressions are not allowed in matchers"),
    ("([a ${concat(a)}]) => {}", "`${}` metavariable expressions are not allowed in matchers"),
    ("(${len()}) => {${}}", "`${}` metavariable expressions are not allowed in matchers"),
    ("attr => {}", "expected `()`"),
    ("derive => {}", "expected `()`"),
    ("unsafe attr", "expected `()`"),
    ("attr attr() () => {}", "expected `()`"),
    ("attr() => {}", "expected subtree"),
    ("attr()", "expected subtree"),
    ("unsafe", "expected subtree"),
    ("unsafe unsafe () => {}", "expected subtree"),
    ("attr() unsafe () => {}", "expected subtree"),
    ("Attr() () => {}", "expected subtree"),
    ("attr() {}", "expected `=`"),
)

# Specifiers, which have no fault in any edition.
SPECIFIERS = (
    "path", "ty", "pat", "pat_param", "stmt", "block", "meta", "item", "vis", "expr", "expr_2021", "ident", "tt",
    "lifetime", "literal",
)

# Texts that are unknown as specifiers, which is no fault.
UNKNOWN = (
    "Path", "tys", "expr2021", "expr_2024", "ident_", "tts",
)

# Metavariable expressions of each form; then invalid ones, invalid depths and elements.
FORMS = (
    "ignore($x)", "index()", "index(1)", "len()", "len(0)", "len(007)", "len(18446744073709551615)", "count($x)",
    "count($x,)", "count($x, 2)", "count($crate, 0)", "concat(a, b)", "concat(a, b,)", "concat($x, 1, _, $_)",
    "concat(true, $false)", "index() foo", "ignore($x) ${}",
)

INVALID_FORMS = (
    "", "len", "()", "_()", "1()", "$len()", "len[]", "len{}", "len, ()", "lens()", "Len()", "(len())", "ignore()",
    "ignore(x)", "ignore($)", "ignore($1)", "ignore($_)", "ignore($x,)", "ignore($x y)", "ignore(, $x)",
)

INVALID_DEPTHS = (
    "len(x)", "len(true)", "len(-1)", "len(+1)", "len(1, 2)", "len(1 2)", "len(1,)", "len(,)", "len((1))", "len(0x1)",
    "len(1_0)", "len(18446744073709551616)", "index($x)", "index(1 2)", "count()", "count(x)", "count($_)",
    "count($x 1)", "count($x; 1)", "count($x, y)", "count($x, 1,)", "count($x, 1 2)",
)

INVALID_ELEMENTS = (
    "concat()", "concat(,)", "concat(a)", "concat(a,)", "concat($x)", "concat(a b)", "concat(a; b)", "concat(, a, b)",
    "concat(a,, b)", "concat(a, b,,)", "concat(a, $)", "concat($, a)", "concat($1, a)", "concat($$x, a)",
    "concat((a), b)", "concat(a, b, (c))", "concat($x $y, z)",
)

# Calls with a depth, which is any literal whose text is a number without a sign but `+`, and has no suffix.
DEPTHS = (
    "len(1)", 'len("2")', 'len("+2")', "r#len(1)",
)

INVALID_TEXTS = (
    "len(1u8)", "len(1usize)", 'len("")', 'len("+")', 'len("++2")', 'len("-2")', 'len("-0")', 'len(" 2")',
    'len("two")',
)

# Repetitions without a separator that can match nothing, and repetitions that pass.
EMPTY = (
    "($()*) => {}", "($()+) => {}", "($()?) => {}", "($($v:vis)*) => {}", "($($v:vis)?) => {}", "($($(a)?)*) => {}",
    "($($(a)*)+) => {}", "($($(a),*)*) => {}", "($( $($v:vis),+ )*) => {}", "($($v:vis $(a)?)*) => {}",
    "(x [$()*]) => {}", "($(a $()*);*) => {}", "($()*) => {} x",
)

NOT_EMPTY = (
    "($($v:vis),*) => {}", "($($(a)* b)*) => {}", "($(($v:vis))*) => {}", "($($x:foo)*) => {}", "($(),*) => {}",
    "($($(a)+)*) => {}", "($v:vis) => {}", "() => {$()*}",
)

# Bodies of repetitions.
BODIES = (
    "($(a);;*) => {}", "($($x:ident),*) => {$($x);*}", "($($($x:ident)*),*) => {$($($x)*),*}",
    "([a $($x:expr $(, $y:ty)?);+]) => {}", "() => {$([$($x),*])*}", "($(a)*$(b)?) => {$$(a)*}",
)

# Tokens after a repetition, in a pattern and in a template.
SUFFIXES = (
    "*", "+", "?", ",*", ",+", ";?", "=>*", ";;*", ";;;*", "..=+", "-,-?", "$*", "b*", "b +", "_?", "true*", "1*",
    "1 +", "'b*", "'_+", "**", "+*", "*;;;;", "*[a]",
)

INVALID_SUFFIXES = (
    "", ",", "b", "'b", "b c*", "b,*", "b 1*", "1 b*", "1,*", "1 2*", ",b*", ",1*", ",,b*", ",'b*", "'b c*", "'b,*",
    ";;;;*", ".....+", "$x*", "[a]*", ",[a]*", "b[a]*", "(*)", ",(*)",
)

INVALID = "invalid metavariable expression"

# The parts of a definition before a text and after it, its number of rules or its fault, and the texts.
PARTS = (
    ("() => {}; ($x:", ") => {}", 2, UNKNOWN),
    ("($x:ident) => { ${", "} }", 1, FORMS),
    ("() => {}; () => { ${", "} }", INVALID, INVALID_FORMS),
    ("() => { ${", "} }", INVALID, INVALID_DEPTHS),
    ("() => { ${", "} }", INVALID, INVALID_ELEMENTS),
    ("() => {${", "}}", 1, DEPTHS),
    ("() => {${", "}}", INVALID, INVALID_TEXTS),
    ("", "", "empty token tree in repetition", EMPTY),
    ("", "", 1, NOT_EMPTY),
    ("", "", 1, BODIES),
    ("() => {}; ($(a)", ") => {}", "invalid repeat", INVALID_SUFFIXES),
    ("() => {}; () => {$(a)", "}", "invalid repeat", INVALID_SUFFIXES),
)

# Pieces of definitions, and the result for each prefix that ends in one: the number of rules, or the fault, or that the
# prefix isn't lexed. A group that is open at the end is closed there.
PIECES = (
    (
        ("($($x:ident),*) ", "expected `=`"),
        ("=", "expected `>`"),
        ("> ", "expected subtree"),
        ("{$", 1),
        ("($x);", "invalid repeat"),
        ("*}", 1),
    ),
    (
        ("\n", 0),
        ("() ", "expected `=`"),
        ("=", "expected `>`"),
        ("> ", "expected subtree"),
        ("{ { }\n", 1),
    ),
    (
        ("\n", 0),
        ("($($e:expr),* $(,)?) ", "expected `=`"),
        ("=", "expected `>`"),
        ("> ", "expected subtree"),
        ("{\n    $", 1),
        ("($e);", "invalid repeat"),
        ("* ;\n};\n", 1),
    ),
    (
        ("\n", 0),
        ("(-1) ", "expected `=`"),
        ("=", "expected `>`"),
        ("> ", "expected subtree"),
        ("{-1};\n", 1),
        ("(- 2) ", "expected `=`"),
        ("=", "expected `>`"),
        ("> ", "expected subtree"),
        ("{- 2};\n", 2),
        ("(- 3.0) ", "expected `=`"),
        ("=", "expected `>`"),
        ("> ", "expected subtree"),
        ("{- 3.0};\n", 3),
        ("(@$lit:literal) ", "expected `=`"),
        ("=", "expected `>`"),
        ("> ", "expected subtree"),
        ("{$lit}\n", 4),
    ),
    (
        ("($($v:vis),*) ", "expected `=`"),
        ("=", "expected `>`"),
        ("> ", "expected subtree"),
        ("{}", 1),
    ),
    (
        ("($( b $(x)? )x*) ", "expected `=`"),
        ("=", "expected `>`"),
        ("> ", "expected subtree"),
        ("{}", 1),
    ),
    (
        ("($x:ident) ", "expected `=`"),
        ("=", "expected `>`"),
        ("> ", "expected subtree"),
        ("{$", 1),
        ("($x)", "invalid repeat"),
        ("*}; ", 1),
        ("($x:ident) ", "expected `=`"),
        ("=", "expected `>`"),
        ("> ", "expected subtree"),
        ("{$x}", 2),
    ),
    (
        ("att", "expected subtree"),
        ("r", "expected `()`"),
        ("() ", "expected subtree"),
        ("() ", "expected `=`"),
        ("=", "expected `>`"),
        ("> ", "expected subtree"),
        ("{A}; ", 1),
        ("() ", "expected `=`"),
        ("=", "expected `>`"),
        ("> ", "expected subtree"),
        ("{B}", 2),
    ),
    (
        ("($($a:ident)* ; $($b:ident)*) ", "expected `=`"),
        ("=", "expected `>`"),
        ("> ", "expected subtree"),
        ("{$", 1),
        ("($a $b)", "invalid repeat"),
        ("*}", 1),
    ),
    (
        ("($($x:ident)*) ", "expected `=`"),
        ("=", "expected `>`"),
        ("> ", "expected subtree"),
        ("{$", 1),
        ("($x)", "invalid repeat"),
        ("*}", 1),
    ),
    (
        ("($($($x:ident)*),*) ", "expected `=`"),
        ("=", "expected `>`"),
        ("> ", "expected subtree"),
        ("{$", 1),
        ("{count($", "invalid metavariable expression"),
        ("x)} $", 1),
        ("{count($", "invalid metavariable expression"),
        ("x, 1)}}", 1),
    ),
    (
        ("($x:ident) ", "expected `=`"),
        ("=", "expected `>`"),
        ("> ", "expected subtree"),
        ("{$", 1),
        ("{concat($x, ", "invalid metavariable expression"),
        ("_bar)}}", 1),
    ),
    (
        ("($x:ident) ", "expected `=`"),
        ("=", "expected `>`"),
        ("> ", "expected subtree"),
        ("{$", 1),
        ("{concat($x, ", "invalid metavariable expression"),
        ('"-', "unlexed"),
        ('")}}', 1),
    ),
    (
        ("($p:path) ", "expected `=`"),
        ("=", "expected `>`"),
        ("> ", "expected subtree"),
        ("{$p}", 1),
    ),
    (
        ("(1) ", "expected `=`"),
        ("=", "expected `>`"),
        ("> ", "expected subtree"),
        ("{}", 1),
    ),
    (
        ("(foo) ", "expected `=`"),
        ("=", "expected `>`"),
        ("> ", "expected subtree"),
        ("{}", 1),
    ),
    (
        ("() ", "expected `=`"),
        ("=", "expected `>`"),
        ("> ", "expected subtree"),
        ("{$y}", 1),
    ),
    (
        ("() ", "expected `=`"),
        ("=", "expected `>`"),
        ("> ", "expected subtree"),
        ("{} ", 1),
        ("x", "expected `;`"),
    ),
    (
        ("($( $($v:vis),+ )*) ", "expected `=`"),
        ("=", "expected `>`"),
        ("> ", "expected subtree"),
        ("{}", "empty token tree in repetition"),
    ),
    (
        ("($x:ident) ", "expected `=`"),
        ("=", "expected `>`"),
        (">", "expected subtree"),
    ),
    (
        ("($(a) => {}", "expected `=`"),
    ),
    (
        ("($x:ident = $t:tt;) ", "expected `=`"),
        ("=", "expected `>`"),
        ("> ", "expected subtree"),
        ("{ pair ($t) $x }", 1),
    ),
    (
        ("($($t:ident),* as $ty:ident) ", "expected `=`"),
        ("=", "expected `>`"),
        ("> ", "expected subtree"),
        ("{}", 1),
    ),
    (
        ("($(a)? $(a)?) ", "expected `=`"),
        ("=", "expected `>`"),
        ("> ", "expected subtree"),
        ("{}", 1),
    ),
    (
        ("($e:expr) ", "expected `=`"),
        ("=", "expected `>`"),
        ("> ", "expected subtree"),
        ("{$e * 2}", 1),
    ),
    (
        ("($x:ident $x:ident) ", "expected `=`"),
        ("=", "expected `>`"),
        ("> ", "expected subtree"),
        ("{$x}", 1),
    ),
    (
        ("($a:tt $b:tt) ", "expected `=`"),
        ("=", "expected `>`"),
        ("> ", "expected subtree"),
        ("{$a $b}", 1),
    ),
    (
        ("($x:foo) ", "expected `=`"),
        ("=", "expected `>`"),
        ("> ", "expected subtree"),
        ("{}; ", 1),
        ("($($t:tt)*) ", "expected `=`"),
        ("=", "expected `>`"),
        ("> ", "expected subtree"),
        ("{}", 2),
    ),
    (
        ("($e:expr) ", "expected `=`"),
        ("=", "expected `>`"),
        ("> ", "expected subtree"),
        ("{}", 1),
    ),
    (
        ("($($x:ident)*) ", "expected `=`"),
        ("=", "expected `>`"),
        ("> ", "expected subtree"),
        ("{$", 1),
        ("(${index()} ${len()} $x)", "invalid repeat"),
        ("*}", 1),
    ),
)


def has_rules(run, count):
    """Whether a run with `--lint` has a line for each of so many rules."""
    lines = run.out.splitlines()
    are_rules = all(line.startswith(f"rule {number}: ") for number, line in enumerate(lines))
    return (run.status, run.err) == (0, "") and are_rules and len(lines) == count


def is_read(run, want):
    """Whether a run with `--lint` is of a definition with so many rules, or that fault."""
    if want == "unlexed":
        return (run.status, run.out) == (4, "") and run.err.startswith("cannot lex the.def at ")
    if isinstance(want, int):
        return has_rules(run, want)
    return (run.status, run.out, run.err) == (2, "", f"definition refused: {want}\n")


class Definitions:
    """Definitions that a program reads, in one folder."""

    def __init__(self, program, folder):
        self.program, self.texts = program, Texts(program, folder)

    def are(self, table, definition, want, edition=2024):
        run = self.texts.ran(definition, "", edition, lint=True)
        self.program.check(table, (definition, want, edition, run), is_read(run, want), True)

    def parts(self):
        for before, after, want, texts in PARTS:
            for text in texts:
                self.are("PARTS", before + text + after, want)

    def suffixes(self):
        for suffix in SUFFIXES:
            self.are("SUFFIXES", f"() => {{}}; ($(a){suffix}) => {{$(a){suffix}}}", 2)

    def specifiers(self):
        for edition in (2015, 2018, 2021, 2024):
            for specifier in SPECIFIERS:
                self.are("SPECIFIERS", f"($x:{specifier} {specifier}) => {{$x}}", 1, edition)

    def prefixes(self):
        for pieces in PIECES:
            text = ""
            for piece, want in pieces:
                for char in piece:
                    text += char
                    self.are("PIECES", text, want)


def test(program):
    with tempfile.TemporaryDirectory() as folder:
        definitions = Definitions(program, folder)
        for row in (*READ, *REFUSED):
            definitions.are("READ, REFUSED", *row)
        definitions.parts()
        definitions.suffixes()
        definitions.specifiers()
        definitions.prefixes()
