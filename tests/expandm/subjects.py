"""Attributes before calls. rustc evaluates `cfg` and `cfg_attr` there before it expands the call. It ignores every other attribute that it
knows. So no attribute of an expanded call is left that could apply to the expansion, or to the code after it. The white space of the text
is the printer's choice.
"""
from expandm import check_becomes, check_like, defined

NONE = "none { ($($t:tt)*) => {} }"
TWO = "two { () => { fn a() {} fn b() {} } }"
ONE = "e { ($x:expr) => { $x } }"
A_AND_B = "fn a() {}\nfn b() {}"

# A definition, the text after it, and the expansion of that text.
ROWS = (
    (NONE, "#[inline] none! { a } fn f() {}", " fn f() {}"),
    (NONE, "#[cfg(unix)] none! { a } fn main() {}", " fn main() {}"),
    (NONE, "#[cfg(windows)] none! { a } fn main() {}", "#[cfg(windows)] none! { a } fn main() {}"),
    (NONE, "/// Docs.\n#[cfg(unix)]\nnone! { a }", ""),
    (NONE, "#[cfg_attr(windows, inline)] none!(); x", " x"),
    (NONE, "#[cfg_attr(unix, cfg(windows))] none!(); x", "#[cfg_attr(unix, cfg(windows))] none!(); x"),
    (NONE, "impl A { #[inline] none! { a } }", "impl A {  }"),
    (TWO, "#[cfg(unix)] two! {}", A_AND_B),
    (TWO, "#[cfg(windows)] two! {}", "#[cfg(windows)] two! {}"),
    (TWO, "#[allow(unused)]\n#[doc = \"a\"]\ntwo!();", A_AND_B),
    (ONE, "fn f() { #[rustfmt::skip] e!(a); }", "fn f() { a; }"),
    (ONE, "x = [#[cfg(unix)] e!(1), #[cfg(windows)] e!(2)];", "x = [1, #[cfg(windows)] e!(2)];"),
    # The attribute is on more than the call.
    (ONE, "fn f() { #[allow(unused)] e!(x).len(); }", "fn f() { #[allow(unused)] x.len(); }"),
    (ONE, "match x { #[cfg(unix)] e!(1) => {} }", "match x { #[cfg(unix)] 1 => {} }"),
    # Calls of unknown macros are unchanged, with their attributes.
    (ONE, "#[cfg(unix)] n! { e!(1) } #[inline] println!(\"{}\", e!(1));", "#[cfg(unix)] n! { e!(1) } #[inline] println!(\"{}\", 1);"),
    # An attribute that may be a procedural macro.
    (TWO, "#[other] two! {}", f"#[other] {A_AND_B}"),
    # In an expansion: disabled code is unchanged, and no definition in it counts.
    (
        "on { ($(#[$m:meta])* $a:ident) => { $(#[$m])* two!(); } } macro_rules! two { () => { fn a() {} fn b() {} } }",
        "on! { #[cfg(unix)] #[inline] x } on! { #[cfg(windows)] x }",
        f"{A_AND_B} #[cfg(windows)] two!();",
    ),
    (
        "m { () => { #[cfg(windows)] macro_rules! n { () => { 1 } } #[cfg(unix)] macro_rules! n { () => { 2 } } x = n!(); } }",
        "m!();",
        "#[cfg(windows)] macro_rules! n {\n    () => {\n        1\n    }\n}\n#[cfg(unix)] macro_rules! n {\n    () => {\n        2\n    }\n}\n"
        "x = 2;",
    ),
    (
        "m { () => { #[cfg(windows)] mod w { m!(1); } #[cfg(unix)] mod u { m!(1); } }; (1) => { fn f() {} } }",
        "m!();",
        "#[cfg(windows)] mod w {\n    m!(1);\n}\n#[cfg(unix)] mod u {\n    fn f() {}\n}",
    ),
)

# Texts without `--test`: rustc drops a function with `#[test]`.
TESTS = (
    (ONE, "#[test] fn f() { e!(1 2); } fn g() { e!(3) }", "#[test] fn f() { e!(1 2); } fn g() { 3 }"),
    (ONE, "#[cfg_attr(unix, test)] fn f() { e!(1 2); }", "#[cfg_attr(unix, test)] fn f() { e!(1 2); }"),
    (ONE, "#[test::other] fn f() { e!(1) }", "#[test::other] fn f() { 1 }"),
    (TWO, "#[test] two! {}", "#[test] two! {}"),
)

# The example of docs/EXPANDM.md, and its expansion.
EXAMPLE = """\
macro_rules! two { () => { fn a() {} fn b() {} }; }
#[cfg(unix)]
two! {}
#[cfg(windows)]
two! {}
"""

EXPANDED = EXAMPLE.replace("#[cfg(unix)]\ntwo! {}", A_AND_B)

# With `--test`.
WITH_TESTS = ((ONE, "#[test] fn f() { e!(1) }", "#[test] fn f() { 1 }"),)

# An expansion with attributes that have a fault: each is reported at its location, and remains before its target.
FAULTY = (
    "macro_rules! n { () => { fn a() {} } } macro_rules! m { () => { #[inline] #[cfg(a b)] n!(); #[cfg(a(b))] fn f() {} } }\n"
    "m!();\n",
    ["a.rs:1:83: error: expected `,`", "a.rs:1:99: error: invalid predicate"],
    "#[inline] #[cfg(a b)] fn a() {}\n#[cfg(a(b))] fn f() {}",
)


def test(program):
    check_like(program, "subjects.ROWS", ROWS)
    check_like(program, "subjects.TESTS", TESTS)
    check_becomes(program, "subjects.EXAMPLE", EXAMPLE, EXAMPLE, EXPANDED)
    for row in WITH_TESTS:
        rules, rest, want = row
        ran = program.run(["--test", "a.rs"], {"a.rs": defined(rules, rest)})
        program.check("subjects.WITH_TESTS", row, (ran.status, ran.out, ran.err), (0, defined(rules, want), ""))
    text, reports, want = FAULTY
    ran = program.run(["a.rs"], {"a.rs": text})
    found = [line for line in ran.err.splitlines() if ": error: " in line]
    program.check("subjects.FAULTY", text, (ran.status, found, want in ran.out), (1, reports, True))
