"""Programs with each kind of fragment, with repetitions, and with calls in calls. Their expansions are worked out by hand, by the rules of
macros. The white space of the text is the printer's choice.
"""
from expandm import check_like

# A definition, the text after it, and the expansion of that text.
ROWS = (
    ("m { ($b:block) => { $b }; }", "fn f() -> u8 m!({ 1 })", "fn f() -> u8 {\n    1\n}"),
    ("m { ($e:expr, $f:expr) => { $e * $f }; }", "x = m!(1 + 2, 3) - 1;", "x = ((1 + 2) * 3) - 1;"),
    ("m { ($i:ident) => { fn $i() {} }; }", "m!(a); m!(r#fn);", "fn a() {} fn r#fn () {}"),
    ("m { ($i:item) => { $i }; }", "m!(pub enum E { A, B });", "pub enum E {\n    A, B\n}"),
    ("m { ($l:lifetime) => { $l: loop { break $l; } }; }", "m!('a);", "'a: loop {\n    break 'a;\n};"),
    ("m { ($l:literal) => { -$l }; }", "x = m!(1i8);", "x = -1i8;"),
    (
        "m { ($(#[$m:meta])* $n:ident) => { $(#[$m])* struct $n; }; }",
        'm!(#[a(b)] #[c = "d"] N);',
        '#[a(b)] #[c = "d"] struct N;',
    ),
    ("m { ($p:pat) => { n!(x, $p) }; }", "x = m!(Some(1) | None)", "x = n!(x, Some(1) | None)"),
    ("m { ($p:path) => { use $p; }; }", "m!(a::b);", "use a::b;"),
    ("m { ($s:stmt) => { $s; }; }", "{ m!(let z = 3); }", "{ let z = 3; }"),
    ("m { ($($t:tt)*) => { [$(s!($t)),*] }; }", "x = m!(a + (b c) 'x');", "x = [s!(a), s!(+), s!((b c)), s!('x')];"),
    ("m { ($t:ty) => { <$t>::new() }; }", "x = m!(Vec<u8>);", "x = <Vec<u8> >::new();"),
    (
        "m { ([$n:ident: $t:ty]) => { let $n: $t; }; ($n:ident $t:ty) => { m!([$n:$t]); }; }",
        "m!(x ::a::B);",
        "let x: ::a::B;",
    ),
    ("m { (@ &&y) => { 2 }; (@ & &y) => { 3 }; (# $($t:tt)*) => { m!(@ &$($t)*) }; }", "x = m!(# &y);", "x = 3;"),
    (
        "m { ($v:vis $n:ident) => { $v const $n: u8 = 9; }; }",
        "m!(pub(crate) A); m!(B);",
        "pub(crate) const A: u8 = 9; const B: u8 = 9;",
    ),
    ("m { () => { 0 }; ($h:tt $($t:tt)*) => { 1 + m!($($t)*) }; }", "x = m!(a (b) c);", "x = 1 + (1 + (1 + 0));"),
    (
        "m { ($($k:ident: [$($v:expr),*];)*) => { $(const $k: &[u8] = &[$($v),*];)* }; }",
        "m! { A: [1, 2]; B: []; }",
        "const A: &[u8] = &[1, 2];\nconst B: &[u8] = &[];",
    ),
    (
        "m { ($n:ident) => { macro_rules! $n { ($x:expr) => { $x } } }; }",
        "m!(n); x = n!(7);",
        "macro_rules! n {\n    ($x:expr) => {\n        $x\n    }\n} x = 7;",
    ),
    ("m { ($($x:tt)*) => { $($x)* }; }", "x = m!(m!(m!(1 + 2)));", "x = 1 + 2;"),
    ("m { ($x:expr) => { $x } }", "a\r\né /* m!(1) */ m!(2)\r\n", "a\r\né /* m!(1) */ 2\r\n"),
)


def test(program):
    check_like(program, "programs.ROWS", ROWS)
