"""The two dialects: how rustc 1.95 expands a call, and how `--dialect rust-analyzer` does.

In rustc's dialect:

- Most fragments are passed on whole. `tt` matches such a fragment as one token tree, and no token of a pattern matches it.
- An empty `vis` doesn't match at the end.
- Raw and plain identifiers differ.
- No later rule is tried if a fragment has begun, after a local ambiguity, or if a rule's template faults.
"""
from expandm import defined

# Rules of `m`; the text after them; its expansion by rustc; its expansion by rust-analyzer.
ROWS = (
    # A fragment is one token tree.
    *(
        (
            f"m {{ ($x:{kind}) => {{ t!($x) }} }} macro_rules! t {{ ($t:tt) => {{ 1 }}; ($($t:tt)*) => {{ 2 }} }}",
            f"x = m!({argument});",
            "x = 1;",
            f"x = {other};",
        )
        for kind, argument, other in (
            ("expr", "a.b", 1),
            ("ty", "V<u8>", 2),
            ("path", "a::b", 2),
            ("item", "struct S;", 2),
            ("literal", "-1", 2),
            ("pat", "Some(_)", 2),
            ("pat_param", "Some(_)", 2),
            ("meta", "a(b)", 2),
            ("vis", "pub(crate)", 2),
            ("stmt", "let x = 1", 2),
            ("block", "{ a }", 1),
            ("ident", "a", 1),
            ("lifetime", "'a", 1),
            ("tt", "(a b)", 1),
        )
    ),
    # No token of a pattern matches a fragment, unless it is an identifier, a lifetime or a token tree.
    (
        "m { ($e:expr) => { k!($e) } } macro_rules! k { (1) => { 3 }; (x) => { 4 }; ($e:expr) => { 5 } }",
        "x = m!(1); x = m!(x);",
        "x = 5; x = 5;",
        "x = 3; x = 4;",
    ),
    ("m { ($l:literal) => { k!($l) } } macro_rules! k { (1) => { 3 }; ($e:expr) => { 5 } }", "x = m!(1);", "x = 5;", "x = 3;"),
    ("m { ($t:ty) => { k!($t) } } macro_rules! k { (u8) => { 3 }; ($t:ty) => { 5 } }", "x = m!(u8);", "x = 5;", "x = 3;"),
    (
        "m { ($i:ident, $l:lifetime, $t:tt) => { k!($i $l $t) } } macro_rules! k { (a 'a +) => { 3 }; ($($t:tt)*) => { 5 } }",
        "x = m!(a, 'a, +);",
        "x = 3;",
        "x = 3;",
    ),
    (
        "m { ($e:expr) => { k!(!d $e) } } macro_rules! k { (!d $n:expr) => { 3 }; ($n:expr) => { 5 } }",
        "x = m!(1);",
        "x = 3;",
        "x = 3;",
    ),
    # The kinds that match a fragment again.
    (
        "m { ($l:literal) => { (k!($l), l!($l), n!($l)) } } macro_rules! k { ($x:literal) => { 3 } } "
        "macro_rules! l { ($x:expr) => { 4 } } macro_rules! n { ($x:pat) => { 5 } }",
        "x = m!(-1);",
        "x = (3, 4, 5);",
        "x = (3, 4, 5);",
    ),
    (
        "m { ($p:path) => { (k!($p), l!($p), n!($p)) } } macro_rules! k { ($x:path) => { 3 } } "
        "macro_rules! l { ($x:ty) => { 4 } } macro_rules! n { ($x:expr) => { 5 } }",
        "x = m!(a::b);",
        "x = (3, 4, 5);",
        "x = (3, 4, 5);",
    ),
    (
        "m { ($v:vis, $i:item, $b:block) => { k!($v, $i, $b) } } macro_rules! k { ($v:vis, $i:item, $b:block) => { 3 } }",
        "x = m!(pub, fn f() {}, {});",
        "x = 3;",
        "x = 3;",
    ),
    # A fragment that is passed on is emitted in the same way.
    (
        "m { ($e:expr) => { k!($e) } } macro_rules! k { ($e:expr) => { $e * 2 } }",
        "x = m!(1 + 2); x = m!(a);",
        "x = (1 + 2) * 2; x = a * 2;",
        "x = (1 + 2) * 2; x = a * 2;",
    ),
    ("m { ($t:tt) => { k!($t) } } macro_rules! k { ((1)) => { 3 }; ($e:expr) => { 5 } }", "x = m!((1));", "x = 3;", "x = 3;"),
    # An empty visibility.
    ("m { ($x:vis) => { 1 }; ($($t:tt)*) => { 2 } }", "x = m!(); x = m!(pub);", "x = 2; x = 1;", "x = 1; x = 1;"),
    ("m { (a $x:vis) => { 1 }; ($($t:tt)*) => { 2 } }", "x = m!(a);", "x = 2;", "x = 1;"),
    ("m { ((a $x:vis)) => { 1 }; ($($t:tt)*) => { 2 } }", "x = m!((a)); x = m!((a pub));", "x = 2; x = 1;", "x = 1; x = 1;"),
    ("m { ($x:vis struct) => { 1 } }", "x = m!(struct);", "x = 1;", "x = 1;"),
    # Raw and plain names.
    ("m { (a) => { 6 }; (r#a) => { 7 } }", "x = m!(r#a); x = m!(a);", "x = 7; x = 6;", "x = 6; x = 6;"),
    ("m { ($($x:ident)r#a*) => { 6 }; ($($x:tt)*) => { 7 } }", "x = m!(b r#a b); x = m!(b a b);", "x = 6; x = 7;", "x = 6; x = 6;"),
    # Tokens that begin no fragment. rustc tries the next rule.
    *(
        (f"m {{ ($x:{kind}) => {{ 1 }}; ($($t:tt)*) => {{ 2 }} }}", f"x = m!({argument});", "x = 2;", "x = 2;")
        for kind, argument in (
            ("expr", "+ 1"),
            ("expr", ""),
            ("ty", "1"),
            ("pat", "+"),
            ("path", "1"),
            ("block", "a"),
            ("meta", "1"),
            ("ident", "1"),
            ("lifetime", "a"),
            ("literal", "a"),
            ("vis", "+"),
        )
    ),
    # Literals of another kind.
    ('m { (1) => { 6 }; ("1") => { 7 } }', 'x = m!("1"); x = m!(1);', "x = 7; x = 6;", "x = 6; x = 6;"),
)

# Rules of `m`, an argument, for which rustc reports an error without a look at later rules, and the expansion by rust-analyzer.
COMMITTED = (
    # A fragment begins and has a fault inside.
    ("($a:expr) => { 1 }; (1 +) => { 4 }", "1 +", "4"),
    ("(if $c:expr) => { 3 }; ($($t:tt)*) => { 4 }", "if 1 +", "4"),
    ("($a:expr) => { 3 }; (if) => { 4 }", "if", "4"),
    ("($a:ty) => { 3 }; ($($t:tt)*) => { 4 }", "V<", "4"),
    ("(a $a:pat) => { 3 }; ($($t:tt)*) => { 4 }", "a &", "4"),
    ("($a:literal) => { 3 }; ($($t:tt)*) => { 4 }", "-", "4"),
    ("($i:item) => { 3 }; ($($t:tt)*) => { 4 }", "a", "4"),
    # A local ambiguity, and two readings.
    ("($($a:ident)* $b:ident) => { 3 }; ($($t:tt)*) => { 4 }", "a", "4"),
    ("($(a)? $(a)?) => { 3 }; ($($t:tt)*) => { 4 }", "a", "4"),
    # A fault of the template.
    ("($($a:ident)*) => { $a }; ($($t:tt)*) => { 4 }", "a", "4"),
)

# The kinds of an inner macro's variable.
KINDS = "expr literal path ty pat pat_param stmt block item meta vis ident lifetime tt"

# A fragment of one kind, and what rustc does with it for a variable of each of the kinds above: `1` if the variable matches it, `2` if
# the next rule is tried, which matches any tokens, and `-` if the call ends with an error.
TAKEN = (
    ("expr", "a.b", "1 2 - 2 1 1 1 - - - 2 2 2 1"),
    ("expr", "1", "1 1 - 2 1 1 1 - - - 2 2 2 1"),
    ("expr", "-1", "1 1 - 2 1 1 1 - - - 2 2 2 1"),
    ("literal", "1", "1 1 - 2 1 1 1 - - - 2 2 2 1"),
    ("literal", "-1", "1 1 - 2 1 1 1 - - - 2 2 2 1"),
    ("literal", "true", "1 1 - 2 1 1 1 - - - 2 2 2 1"),
    ("path", "a::b", "1 2 1 1 1 1 1 2 - 1 2 2 2 1"),
    ("ty", "V<u8>", "2 2 1 1 - - - 2 - - 2 2 2 1"),
    ("ty", "u8", "2 2 1 1 - - - 2 - 1 2 2 2 1"),
    ("pat", "Some(_)", "2 2 - 2 1 1 - 2 - - 2 2 2 1"),
    ("pat_param", "a", "2 2 - 2 1 1 - 2 - - 2 2 2 1"),
    ("stmt", "let x = 1", "2 2 - 2 2 2 1 - - - 2 2 2 1"),
    ("block", "{ a }", "1 2 2 2 2 2 1 1 - 2 2 2 2 1"),
    ("item", "struct S;", "2 2 2 2 2 2 1 2 1 2 2 2 2 1"),
    ("meta", "a(b)", "2 2 - 2 - - - 2 - 1 2 2 2 1"),
    ("meta", "a", "2 2 - 2 - - - 2 - 1 2 2 2 1"),
    ("vis", "pub", "2 2 2 2 2 2 - 2 - 2 1 2 2 1"),
    ("ident", "a", "1 2 1 1 1 1 1 2 - 1 2 1 2 1"),
    # rustc alone begins a block with a lifetime that is passed on. It doesn't with one of the call.
    ("lifetime", "'a", "- 2 2 - 2 2 - . - 2 2 2 1 1"),
    ("tt", "(a)", "1 2 2 1 1 1 1 2 - 2 2 2 2 1"),
)

FOLLOWED_KINDS = "expr literal path ty pat stmt block item meta vis"

# Kinds and arguments as above; the tokens that are passed on, in which `$x` is the fragment; and what rustc does with them for each of
# these kinds. Unlike rustc, `expandm` doesn't look into parentheses.
FOLLOWED = (
    ("ty", "V<u8>", "$x::A", "2 2 2 2 - - 2 - - 2"),
    ("ty", "u8", "$x::A", "2 2 2 2 - - 2 - 2 2"),
    ("ty", "V<u8>", "1 + $x::f()", "- 2 2 2 2 - 2 - 2 2"),
    ("ty", "V<u8>", "&$x", "- 2 2 1 - - 2 - 2 2"),
    ("ty", "V<u8>", "a as $x", "1 2 2 2 2 1 2 - 2 2"),
    ("ty", "V<u8>", "W<$x>", "- 2 1 1 2 - 2 - 2 2"),
    ("path", "a::b", "$x::c", "2 2 2 2 2 2 2 - 2 2"),
    ("path", "a::b", "$x!()", "2 2 2 1 1 1 2 - 2 2"),
    ("path", "a::b", "$x {}", "2 2 2 2 1 1 2 - 1 2"),
    ("path", "a::b", "a + $x", "1 2 2 1 2 1 2 - 2 2"),
    ("expr", "a.b", "$x.c()", "1 2 - 2 2 1 - - - 2"),
    ("expr", "a.b", "-$x", "1 - 2 2 - 1 2 - 2 2"),
    ("expr", "1", "- $x", "1 1 2 2 1 1 2 - 2 2"),
    ("expr", "1", "1..$x", "1 2 2 2 1 1 2 - 2 2"),
    ("literal", "1", "W<$x>", "- 2 1 1 2 - 2 - 2 2"),
    ("expr", "a", "W::<{ $x }>", "1 2 1 1 1 1 2 - - 2"),
    ("block", "{}", "if a $x", "1 2 - 2 - 1 2 - - 2"),
    ("block", "{}", "unsafe $x", "- 2 - - - - 2 - - 2"),
    ("block", "{}", "async $x", "1 2 - 2 - 1 2 - - 2"),
    ("vis", "pub", "$x fn f() {}", "2 2 2 2 2 1 2 1 2 2"),
    ("meta", "a", "#[$x] fn f() {}", "- 2 2 2 2 1 2 1 2 2"),
    ("item", "fn f() {}", "#[a] $x", "- 2 2 2 2 1 2 1 2 2"),
    ("stmt", "let x = 1", "$x;", "2 2 - 2 2 2 - - - 2"),
    ("pat", "a", "&$x", "- 2 2 - 1 - 2 - 2 2"),
    ("pat", "a", "let $x = 1", "2 2 - 2 - 1 2 - - 2"),
    ("path", "V", "impl $x for W {}", "2 2 - 2 - 1 2 1 - 2"),
    ("ty", "V", "impl $x {}", "2 2 - 2 - 1 2 1 - 2"),
    ("path", "a", "use $x;", "2 2 - 2 - 1 2 1 - 2"),
    ("literal", '"C"', "extern $x fn f() {}", "2 2 - - - 1 2 1 - 2"),
)


def expanded(program, row, words, text, want):
    ran = program.run([*words, "--depth", "9", "a.rs"], {"a.rs": text})
    program.check(f"dialects.ROWS {words}", row, (ran.status, ran.out, ran.err), (0, want, ""))


def check_both(program, row):
    rules, rest, rustc, rust_analyzer = row
    text = defined(rules, rest)
    for words, want in (([], rustc), (["--dialect", "rustc"], rustc), (["--dialect=rust-analyzer"], rust_analyzer)):
        expanded(program, row, words, text, defined(rules, want))


def check_committed(program, row):
    rules, argument, written = row
    text = defined(f"m {{ {rules} }}", f"x = m!({argument});")
    ran = program.run(["a.rs"], {"a.rs": text})
    program.check("dialects.COMMITTED", row, (ran.status, ran.err.count("error: ")), (1, 1))
    other = program.run(["--dialect", "rust-analyzer", "a.rs"], {"a.rs": text})
    program.check("dialects.COMMITTED", row, (other.status, other.out), (0, defined(f"m {{ {rules} }}", f"x = {written};")))


def check_taken(program, kind, argument, passed, inner, want):
    rules = f"m {{ ($x:{kind}) => {{ t!({passed}) }} }} macro_rules! t {{ ($x:{inner}) => {{ 1 }}; ($($t:tt)*) => {{ 2 }} }}"
    ran = program.run(["--depth", "9", "a.rs"], {"a.rs": defined(rules, f"x = m!({argument});")})
    got = ran.out.removeprefix(defined(rules, "x = ")).removesuffix(";")
    program.check("dialects.TAKEN", (kind, argument, passed, inner), got if ran.status == 0 else "-", want)


def test(program):
    for kind, argument, wants in TAKEN:
        for inner, want in zip(KINDS.split(), wants.split()):
            if want != ".":
                check_taken(program, kind, argument, "$x", inner, want)
    for kind, argument, passed, wants in FOLLOWED:
        for inner, want in zip(FOLLOWED_KINDS.split(), wants.split()):
            check_taken(program, kind, argument, passed, inner, want)
    for row in ROWS:
        check_both(program, row)
    for row in COMMITTED:
        check_committed(program, row)
