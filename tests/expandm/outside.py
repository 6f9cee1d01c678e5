"""The expansions of calls of macros of other crates."""
from expandm import counted, files_of

# Arguments; files, each `PATH: TEXT` with a `|` between them; the expansion of the first file; and the number of notes. The arguments name
# the first file. The roots of other crates follow it.
ROWS = (
    (
        "--extern maths=maths.rs a.rs",
        """\
a.rs: use maths::squares;
const A: [u32; 2] = squares![3, 4];|maths.rs: pub const fn square(x: u32) -> u32 { x * x }
#[macro_export]
macro_rules! squares { ($($x:expr),*) => { [$($crate::square($x)),*] }; }""",
        """\
use maths::squares;
const A: [u32; 2] = [::maths::square(3), ::maths::square(4)];""",
        0,
    ),
    (
        "--extern b=b.rs a.rs",
        "a.rs: x = b::m!() + ::b::m!();|b.rs: #[macro_export] macro_rules! m { () => { 1 } }",
        "x = 1 + 1;",
        0,
    ),
    (
        "--extern b=b.rs a.rs",
        "a.rs: use b::m; x = m!();|b.rs: #[macro_export] macro_rules! m { () => { 1 } }",
        "use b::m; x = 1;",
        0,
    ),
    (
        "--extern b=b.rs a.rs",
        "a.rs: #[macro_use] extern crate b; mod a { fn f() { m!() } }|"
        "b.rs: mod n { #[macro_export] macro_rules! m { () => { 1 } } }",
        "#[macro_use] extern crate b; mod a { fn f() { 1 } }",
        0,
    ),
    (
        "--extern b=b.rs a.rs",
        "a.rs: x = b::m!() + m!();|b.rs: macro_rules! m { () => { 1 } } pub(crate) use m;",
        "x = b::m!() + m!();",
        0,
    ),
    (
        "--extern b=b.rs a.rs",
        "a.rs: x = b::m!();|b.rs: #[cfg(no)] #[macro_export] macro_rules! m { () => { 1 } }",
        "x = b::m!();",
        0,
    ),
    (
        "--extern b=b.rs a.rs",
        "a.rs: x = b::m!();|b.rs: #[rustc_builtin_macro] #[macro_export] macro_rules! m { () => { 1 } }",
        "x = b::m!();",
        0,
    ),
    (
        "--extern b=b.rs a.rs",
        "a.rs: x = b::m!() + b::n!();|"
        "b.rs: #[rustc_builtin_macro] #[macro_export] macro_rules! m { () => { 1 } } "
        "#[macro_export] macro_rules! n { () => { 2 } }",
        "x = b::m!() + 2;",
        0,
    ),
    ("--extern b=b.rs a.rs", "a.rs: x = b::n::m!();|b.rs: pub mod n { pub macro m() { 1 } }", "x = 1;", 0),
    (
        "--extern b=b.rs a.rs",
        "a.rs: macro_rules! m { () => { 2 } } x = m!() + b::m!();|b.rs: #[macro_export] macro_rules! m { () => { 1 } }",
        "macro_rules! m { () => { 2 } } x = 2 + 1;",
        0,
    ),
    (
        "--extern b=b.rs a.rs",
        "a.rs: #[macro_export] macro_rules! m { () => { b::m!() } } x = [m!(), crate::m!()];|"
        "b.rs: #[macro_export] macro_rules! m { () => { 1 } }",
        "#[macro_export] macro_rules! m { () => { b::m!() } } x = [1, 1];",
        0,
    ),
    (
        "--extern b=b.rs a.rs",
        "a.rs: mod n { x = m!(); } mod o { macro_rules! m { () => { 2 } } }|"
        "b.rs: #[macro_export] macro_rules! m { () => { 1 } }",
        "mod n { x = 1; } mod o { macro_rules! m { () => { 2 } } }",
        0,
    ),
    (
        "--extern b=b.rs a.rs",
        "a.rs: x = d::m!();|b.rs: #[macro_export] macro_rules! m { () => { 1 } }",
        "x = d::m!();",
        0,
    ),
    (
        "--extern b=b.rs a.rs",
        "a.rs: x = b::m!();|b.rs: #[macro_export] macro_rules! m { () => { $crate::f() } }",
        "x = ::b::f();",
        0,
    ),
    (
        "--extern b=b.rs a.rs",
        "a.rs: b::m!();|b.rs: #[macro_export] macro_rules! m { () => { fn f(x:$crate::T) {} } }",
        "fn f(x: ::b::T) {}",
        0,
    ),
    (
        "--extern b=b.rs a.rs",
        "a.rs: x = b::m!();|"
        "b.rs: #[macro_export] macro_rules! m { () => { $crate::n!() } } #[macro_export] macro_rules! n { () => { 3 } "
        "}",
        "x = 3;",
        0,
    ),
    (
        "--extern b=b.rs a.rs",
        "a.rs: x = b::m!();|"
        "b.rs: #[macro_export] macro_rules! m { () => { n!() } } #[macro_export] macro_rules! n { () => { 3 } }",
        "x = 3;",
        0,
    ),
    (
        "--extern b=b.rs a.rs",
        "a.rs: x = b::m!();|"
        "b.rs: #[macro_export] macro_rules! m { () => { f(n!(), $crate::n!()) } } macro_rules! n { () => { 3 } }",
        "x = f(n!(), ::b::n!());",
        0,
    ),
    (
        "--extern b=b.rs a.rs",
        "a.rs: x = b::m!();|b.rs: #[macro_export] macro_rules! m { () => { crate::f() } } x = m!();",
        "x = crate::f();",
        0,
    ),
    (
        "--extern b=b.rs a.rs",
        "a.rs: fn f(a: i32) -> i32 { b::m!(a) }|"
        "b.rs: #[macro_export] macro_rules! m { ($x:expr) => {{ let a = 1; $x + a }} }",
        "fn f(a: i32) -> i32 { {\n    let a_1 = 1;\n    a + a_1\n} }",
        0,
    ),
    (
        "--extern b=b.rs --extern c=c.rs a.rs",
        "a.rs: x = b::m!() + c::m!() + m!();|"
        "b.rs: #[macro_export] macro_rules! m { () => { 1 } }|"
        "c.rs: #[macro_export] macro_rules! m { () => { 2 } }",
        "x = 1 + 2 + m!();",
        2,
    ),
    (
        "--extern b=b.rs --extern c=c.rs a.rs",
        "a.rs: x = [m!(), n!()];|"
        "b.rs: #[macro_export] macro_rules! m { () => { $crate::n!() } } #[macro_export] macro_rules! n { () => { 1 } "
        "}|"
        "c.rs: #[macro_export] macro_rules! n { () => { 2 } }",
        "x = [1, n!()];",
        2,
    ),
    (
        "--extern b=b.rs a.rs",
        "a.rs: x = b::m!();|b.rs: mod c;|c.rs: #[macro_export] macro_rules! m { () => { 1 } }",
        "x = 1;",
        0,
    ),
    ("--extern b=b.rs a.rs", 'a.rs: x = b::m!();|b.rs: "', "x = b::m!();", 1),
    (
        "--extern b=b.rs a.rs",
        "a.rs: x = b::m!(2);|b.rs: #[macro_export] macro_rules! m { () => { 1 } }",
        "x = b::m!(2);",
        3,
    ),
    (
        "--extern b=b.rs --extern c=c.rs a.rs",
        "a.rs: x = b::m!();|b.rs: pub use c::m;|c.rs: #[macro_export] macro_rules! m { () => { 1 } }",
        "x = 1;",
        0,
    ),
    (
        "--extern c=c.rs --extern b=b.rs a.rs",
        "a.rs: x = b::m!() + c::m!();|c.rs: #[macro_export] macro_rules! m { () => { 1 } }|b.rs: pub use c::m;",
        "x = 1 + 1;",
        0,
    ),
    (
        "--extern b=b.rs --extern c=c.rs a.rs",
        "a.rs: x = [b::k!(), b::m!()];|b.rs: pub use c::m as k;|c.rs: #[macro_export] macro_rules! m { () => { 1 } }",
        "x = [1, b::m!()];",
        0,
    ),
    (
        "--extern b=b.rs --extern c=c.rs a.rs",
        "a.rs: x = b::m!();|b.rs: pub use c::*;|c.rs: #[macro_export] macro_rules! m { () => { 1 } }",
        "x = 1;",
        0,
    ),
    (
        "--extern b=b.rs --extern c=c.rs --extern d=d.rs a.rs",
        "a.rs: x = b::k!();|"
        "b.rs: pub use d::k;|"
        "c.rs: #[macro_export] macro_rules! m { () => { 1 } }|"
        "d.rs: pub use c::m as k;",
        "x = 1;",
        0,
    ),
    (
        "--extern b=b.rs --extern c=c.rs --extern d=d.rs a.rs",
        "a.rs: x = b::m!();|"
        "b.rs: pub use d::*;|"
        "c.rs: #[macro_export] macro_rules! m { () => { 1 } }|"
        "d.rs: pub use c::*;",
        "x = 1;",
        0,
    ),
    (
        "--extern b=b.rs --extern c=c.rs a.rs",
        "a.rs: x = b::m!();|"
        "b.rs: pub use c::m;|"
        "c.rs: pub fn f() -> i32 { 7 } #[macro_export] macro_rules! m { () => { $crate::f() } }",
        "x = ::c::f();",
        0,
    ),
    (
        "--extern b=b.rs --extern c=c.rs a.rs",
        "a.rs: x = (b::m!(), b::k!());|"
        "b.rs: pub use c::{m, n as k, o::*};|"
        "c.rs: #[macro_export] macro_rules! m { () => { 1 } } #[macro_export] macro_rules! n { () => { 2 } } "
        "pub mod o { pub fn g() {} }",
        "x = (1, 2);",
        0,
    ),
    (
        "--extern b=b.rs --extern c=c.rs a.rs",
        "a.rs: x = (b::m!(), b::k!());|"
        "b.rs: pub use {c::m, c::{n as k}};|"
        "c.rs: #[macro_export] macro_rules! m { () => { 1 } } #[macro_export] macro_rules! n { () => { 2 } }",
        "x = (1, 2);",
        0,
    ),
    (
        "--extern b=b.rs --extern c=c.rs a.rs",
        "a.rs: x = b::m!();|b.rs: use c::m;|c.rs: #[macro_export] macro_rules! m { () => { 1 } }",
        "x = b::m!();",
        0,
    ),
    (
        "--extern b=b.rs --extern c=c.rs a.rs",
        "a.rs: x = b::m!();|b.rs: pub(crate) use c::m;|c.rs: #[macro_export] macro_rules! m { () => { 1 } }",
        "x = b::m!();",
        0,
    ),
    (
        "--extern b=b.rs --extern c=c.rs a.rs",
        "a.rs: x = b::m!();|b.rs: pub mod n { pub use c::m; }|c.rs: #[macro_export] macro_rules! m { () => { 1 } }",
        "x = b::m!();",
        0,
    ),
    (
        "--extern b=b.rs --extern c=c.rs --extern d=d.rs a.rs",
        "a.rs: x = b::m!();|"
        "b.rs: pub use c::*; pub use d::m;|"
        "c.rs: #[macro_export] macro_rules! m { () => { 1 } }|"
        "d.rs: #[macro_export] macro_rules! m { () => { 2 } }",
        "x = 2;",
        0,
    ),
    (
        "--extern b=b.rs --extern c=c.rs a.rs",
        "a.rs: x = b::m!();|"
        "b.rs: #[macro_export] macro_rules! m { () => { 3 } } pub use c::*;|"
        "c.rs: #[macro_export] macro_rules! m { () => { 1 } }",
        "x = 3;",
        0,
    ),
    (
        "--extern b=b.rs --extern c=c.rs a.rs",
        "a.rs: use b::m; x = m!();|b.rs: pub use c::m;|c.rs: #[macro_export] macro_rules! m { () => { 1 } }",
        "use b::m; x = 1;",
        0,
    ),
    (
        "--extern b=b.rs --extern c=c.rs a.rs",
        "a.rs: use b::k; x = k!();|b.rs: pub use c::m as k;|c.rs: #[macro_export] macro_rules! m { () => { 1 } }",
        "use b::k; x = 1;",
        0,
    ),
    (
        "--extern b=b.rs --extern c=c.rs a.rs",
        "a.rs: x = b::m!();|"
        "b.rs: extern crate c as e; pub use e::m;|"
        "c.rs: #[macro_export] macro_rules! m { () => { 1 } }",
        "x = 1;",
        0,
    ),
    (
        "--extern b=b.rs --extern c=c.rs a.rs",
        "a.rs: x = b::m!();|b.rs: #[cfg(no)] pub use c::m;|c.rs: #[macro_export] macro_rules! m { () => { 1 } }",
        "x = b::m!();",
        0,
    ),
    (
        "--extern b=b.rs --extern c=c.rs a.rs",
        "a.rs: x = b::m!();|b.rs: pub use ::c::m;|c.rs: #[macro_export] macro_rules! m { () => { 1 } }",
        "x = 1;",
        0,
    ),
    (
        "--extern b=b.rs --extern c=c.rs a.rs",
        "a.rs: x = b::m!();|b.rs: pub use c::*;|c.rs: macro_rules! m { () => { 1 } }",
        "x = b::m!();",
        0,
    ),
    (
        "--extern b=b.rs --extern c=c.rs a.rs",
        "a.rs: x = b::m!();|"
        "b.rs: pub use c::n::*;|"
        "c.rs: #[macro_export] macro_rules! m { () => { 1 } } pub mod n { pub fn f() {} }",
        "x = b::m!();",
        0,
    ),
    (
        "--extern b=b.rs --extern c=c.rs a.rs",
        "a.rs: x = b::m!();|b.rs: pub use c::n::m;|c.rs: pub mod n { pub macro m() { 1 } }",
        "x = 1;",
        0,
    ),
    (
        "--extern b=b.rs --extern c=c.rs a.rs",
        "a.rs: x = b::m!();|"
        "b.rs: pub use c::m;|"
        "c.rs: #[macro_export] macro_rules! m { () => { $crate::n!() } } #[macro_export] macro_rules! n { () => { 4 } "
        "}",
        "x = 4;",
        0,
    ),
    (
        "--extern b=b.rs --extern c=c.rs a.rs",
        "a.rs: x = b::o!();|"
        "b.rs: pub use c::m; #[macro_export] macro_rules! o { () => { $crate::m!() + 1 } }|"
        "c.rs: #[macro_export] macro_rules! m { () => { 1 } }",
        "x = 1 + 1;",
        0,
    ),
    (
        "--extern b=b.rs --extern c=c.rs a.rs",
        "a.rs: x = b::m!();|"
        "b.rs: pub use c::*; pub use c::*;|"
        "c.rs: pub use b::*; #[macro_export] macro_rules! m { () => { 1 } }",
        "x = 1;",
        0,
    ),
    ("--extern b=b.rs a.rs", "a.rs: x = 1;|b.rs: #[macro_export] macro_rules! m { ($x) => { 1 } }", "x = 1;", 0),
    (
        "--extern b=b.rs a.rs",
        "a.rs: x = b::n!();|"
        "b.rs: #[macro_export] macro_rules! m { ($x) => { 1 } } #[macro_export] macro_rules! n { () => { 2 } }",
        "x = 2;",
        0,
    ),
    (
        "--extern b=b.rs a.rs",
        "a.rs: x = b::m!(3);|b.rs: #[macro_export] macro_rules! m { ($x) => { 1 } }",
        "x = b::m!(3);",
        2,
    ),
    (
        "--extern b=b.rs --extern c=c.rs a.rs",
        "a.rs: x = b::m!(3);|b.rs: pub use c::m;|c.rs: #[macro_export] macro_rules! m { ($x) => { 1 } }",
        "x = b::m!(3);",
        2,
    ),
    (
        "--extern b=b.rs a.rs",
        "a.rs: macro_rules! m { ($x) => { 1 } } x = m!(3);|b.rs: #[macro_export] macro_rules! n { () => { 2 } }",
        "macro_rules! m { ($x) => { 1 } } x = m!(3);",
        1,
    ),
)


def test(program):
    for row in ROWS:
        words, texts, want, count = row
        files = files_of(texts)
        ran, found = counted(program, words.split(), files)
        program.check("outside.ROWS", row, (ran.out, found, ran.files), (want, count, files))
