"""Fragments, which rustc keeps whole, and calls of builtin macros. The rows are worked out by hand, and by how rustc 1.95 expands such
calls:

- `u8 < 1` after `as` begins generic arguments.
- `-2.pow(2)` is -4, and `(-2).pow(2)` is 4.
- `stringify!` shows no parentheses that the argument doesn't have, and `concat!` accepts none.
- `line!()` and `column!()` are the line and the column of the outermost call.
"""
from expandm import check_like

# A definition, the text after it, and the expansion of that text.
TYPES = (
    ("m { ($x:expr, $t:ty) => { $x as $t << 1 } }", "x = m!(y, u32);", "x = y as (u32) << 1;"),
    (
        "m { ($x:expr, $t:ty) => { $x as $t < 1 && $x as $t > 1 } }",
        "x = m!(y, u32);",
        "x = y as (u32) < 1 && y as u32 > 1;",
    ),
    ("m { ($($t:ty),*) => { [$(0 as $t << 1),*] } }", "x = m!(u8, V<u8>);", "x = [0 as (u8) << 1, 0 as (V<u8>) << 1];"),
    # A variable of that name in another rule.
    (
        "m { ($t:ty) => { 0 as $t < 1 }; ($t:ident, 1) => { $t<u8> } }",
        "let x: m!(V, 1) = m!(u8);",
        "let x: V <u8> = 0 as (u8) < 1;",
    ),
    ("m { () => {} } macro n($x:ident, $t:ty) { $x as $t < 1 }", "x = n!(y, u8);", "x = y as (u8) < 1;"),
    ("m { ($t:ty) => { f::<$t>(0 as $t, 1 as $t + 2) } }", "x = m!(u8);", "x = f::<u8 >(0 as u8, 1 as u8 + 2);"),
)

# The same: a method is called on all of a negative literal, and on nothing else are parentheses needed.
RECEIVERS = (
    (
        "m { ($e:expr, $l:literal) => { ($e.pow(2), $l.abs()) } }",
        "x = m!(-2i32, -5.5f64);",
        "x = ((-2i32).pow(2), (-5.5f64).abs());",
    ),
    ("m { ($e:expr_2021) => { $e.pow(2) } }", "x = m!(- 2);", "x = (- 2).pow(2);"),
    (
        "m { ($e:expr, $l:literal) => { $e.f($l.g()) } }",
        "x = m!(2, 3.5); x = m!(a, true);",
        "x = 2 .f(3.5 .g()); x = a.f(true.g());",
    ),
    (
        "m { ($e:expr) => { $e.f() } }",
        "x = m!(a::b); x = m!(a.b); x = m!(f(1)); x = m!(-a);",
        "x = a::b.f(); x = a.b.f(); x = f(1).f(); x = (-a).f();",
    ),
    (
        "m { ($e:expr) => { $e.f() } }",
        "x = m!(1 - 2); x = m!((-2)); x = m!([-2]);",
        "x = (1 - 2).f(); x = (-2).f(); x = [-2].f();",
    ),
    ("m { ($e:expr) => { ($e.0.x, $e.await, $e.f.g()) } }", "x = m!(a);", "x = (a.0.x, a.await, a.f.g());"),
    # Nothing is in parentheses beside another operator.
    (
        "m { ($e:expr) => { ($e..2, $e..=2, $e.., 1 + $e, $e as u8, f($e)) } }",
        "x = m!(-2);",
        "x = (-2 ..2, -2 ..=2, -2 .., 1 + -2, -2 as u8, f(-2));",
    ),
    (
        "m { ($($x:literal),*) => { [$($x.pow(2), $x),*] } }",
        "x = m!(-1i32, 2i32);",
        "x = [(-1i32).pow(2), -1i32, 2i32 .pow(2), 2i32];",
    ),
    # Through two macros, whose call may be the argument of one more.
    (
        "m { ($e:expr) => { n!($e) } } macro_rules! n { ($e:expr) => { $e.abs() } }",
        "x = m!(-5); x = m!(m!(-5));",
        "x = (-5).abs(); x = ((-5).abs()).abs();",
    ),
    ("m { ($e:expr) => { n!($e.f()) } } macro_rules! n { ($e:expr) => { $e.g() } }", "x = m!(-5);", "x = ((-5).f()).g();"),
    # The fragment of another variable may begin with a `.`.
    (
        "m { ($e:expr; $($t:tt)*) => { $e $($t)* } }",
        "x = m!(-2; .pow(2)); x = m!(-2; + 1); x = m!(-2; ..3);",
        "x = (-2).pow(2); x = -2 + 1; x = -2 ..3;",
    ),
    ("m { ($e:expr; $d:tt $f:ident) => { $e $d $f } }", "x = m!(-2; .f); x = m!(-2; + f);", "x = (-2).f; x = -2 + f;"),
    (
        "m { ($e:expr) => { (stringify!($e.pow(2)), concat!(stringify!($e.f()))) } }",
        "x = m!(-2);",
        "x = (stringify!(-2 .pow(2)), concat!(stringify!(-2 .f())));",
    ),
    (
        "m { () => {} } macro n($e:expr) { $e.f() } macro k { ($e:expr) => { $e.f() } }",
        "x = n!(-2); x = k!(-2);",
        "x = (-2).f(); x = (-2).f();",
    ),
    # The variables of an inner definition are its own.
    (
        "m { ($e:expr) => { macro_rules! n { ($f:expr) => { $f.f($e.g()) } } } }",
        "m!(-1); x = n!(-2);",
        "macro_rules! n {\n    ($f:expr) => {\n        $f.f((-1).g())\n    }\n} x = (-2).f((-1).g());",
    ),
    (
        "m { ($e:expr) => { macro_rules! n { ($$e:expr) => { $$e.f($e) } } } }",
        "m!(-1); x = n!(-2);",
        "macro_rules! n {\n    ($e:expr) => {\n        $e.f(-1)\n    }\n} x = (-2).f(-1);",
    ),
)

# rustc takes a macro call in place of a literal, but not one in parentheses. A single operand needs none: no operator beside it takes a
# part of it. A field before arguments would become a method, and a macro call that is a statement may become several.
SINGLE_OPERANDS = (
    ('m { ($e:expr) => { println!($e) } }', 'm!(concat!("a", "b"));', 'println!(concat!("a", "b"));'),
    ('m { ($c:expr, $e:expr) => { assert!($c, $e) } }', 'm!(a.b(), concat!("x"));', 'assert!(a.b(), concat!("x"));'),
    ('m { ($e:expr) => { f!(include_str!($e), [env!($e)]) } }', 'x = m!(concat!("a"));', 'x = f!(include_str!(concat!("a")), [env!(concat!("a"))]);'),
    ("m { ($e:expr) => { $e(1) } }", "x = m!(a.b); x = m!(a::b); x = m!(a.b(2));", "x = (a.b)(1); x = a::b(1); x = a.b(2)(1);"),
    ("m { ($e:expr) => { -$e[0]? } }", "x = m!(a?.b); x = m!(a + b);", "x = -a?.b[0]?; x = -(a + b)[0]?;"),
    ("m { ($e:expr) => { f(&$e) } }", "x = m!(v![1]); x = m!(return (a)); x = m!(a..b);", "x = f(&v![1]); x = f(&(return (a))); x = f(&(a..b));"),
    ("m { ($e:expr) => { $e; } }", "m!(n!(2));", "(n!(2));"),
)

# Patterns and types after a sign that would apply to a part of them, and paths before a `<`. rustc accepts `&(3 | 4)`. It refuses `&1..=5`
# and `&dyn A + B`. It reads `&mut x` as a mutable reference.
OPERANDS = (
    ("m { ($p:pat) => { match x { &$p => 1, z @ $p => 2, $p => 3 } } }", "m!(3 | 4);", "match x {\n    &(3 | 4) => 1, z @ (3 | 4) => 2, 3 | 4 => 3\n};"),
    ("m { ($p:pat) => { match x { &$p => 1, z @ $p => 2 } } }", "m!(1..=5);", "match x {\n    &(1..=5) => 1, z @ (1..=5) => 2\n};"),
    ("m { ($p:pat) => { match x { Some(&$p) => 1, $p => 2 } } }", "m!(mut x);", "match x {\n    Some(&(mut x)) => 1, mut x => 2\n};"),
    ("m { ($p:pat) => { |$p: i32| 3 } }", "x = m!(5 | 6 | _); x = m!(a);", "x = |(5 | 6 | _): i32| 3; x = | a: i32| 3;"),
    ("m { ($p:pat_param) => { match x { &$p => 1, [z @ $p] => 2 } } }", "m!(..);", "match x {\n    & .. => 1, [z @ ..] => 2\n};"),
    ("m { ($t:ty) => { f::<&$t, &mut $t, *const $t, Box<$t>>() } }", "x = m!(dyn A + B);", "x = f::<&(dyn A + B), &mut (dyn A + B), *const (dyn A + B), Box<dyn A + B >>();"),
    (
        "m { ($t:ty) => { f::<&'a $t, &'a mut $t, &'static $t>() } }",
        "x = m!(dyn A + B);",
        "x = f::<&'a(dyn A + B), &'a mut (dyn A + B), &'static (dyn A + B)>();",
    ),
    ("m { ($t:ty) => { f::<&$t, *mut $t>() } }", "x = m!(V<u8>);", "x = f::<&V<u8> , *mut V<u8> >();"),
    ("m { ($t:path) => { 3 as $t << 1 } }", "x = m!(i64);", "x = 3 as (i64) << 1;"),
)

# A statement ends before the next token, and a `let` needs its `;`. In the argument of a macro nothing is added.
STATEMENTS = (
    ("s { ($s:stmt) => { $s - 1; } }", "fn f() { s!(let a = 3); }", "fn f() { let a = 3;\n- 1; }"),
    ("t { ($($s:stmt);*) => { $($s)* } }", "fn f() { t!(z = 2; -3) }", "fn f() { z = 2;\n-3 }"),
    ("m { ($s:stmt) => { { $s } } }", "fn f() { m!(let x = 1); m!(x + 1); }", "fn f() { {\n    let x = 1;\n}; {\n    x + 1\n}; }"),
    ("m { ($s:stmt; $t:stmt) => { $s $t } }", "fn f() { m!(let a = 1; let b = 2); }", "fn f() { let a = 1;\nlet b = 2; }"),
    ("m { ($s:stmt) => { $s; a() } }", "x = { m! { let b = 1 } };", "x = { let b = 1;\na() };"),
    ("m { ($s:stmt) => { { n!($s); n! { $s } } } }", "m!(let b = 1);", "{\n    n!(let b = 1);\n    n! {\n        let b = 1\n    }\n};"),
    ("m { ($s:stmt) => { f(|| { $s }) } }", "m!(let b = 1);", "f(|| {\n    let b = 1;\n});"),
)

# The same.
BUILTINS = (
    (
        "m { ($x:expr) => { stringify!(a($x + 1), $x) } }",
        "x = m!(1 + 2); x = m!((1));",
        "x = stringify!(a(1 + 2 + 1), 1 + 2); x = stringify!(a((1) + 1), (1));",
    ),
    ('m { ($x:expr) => { concat!("a", $x, f!($x)) } }', "x = m!(n!(b));", 'x = concat!("a", n!(b), f!(n!(b)));'),
    (
        "m { () => { (line!(), column! [], std::line!(), line!(1), f!(column! {})) } }",
        "x = m!();",
        "x = (2u32, 5u32, std::line!(), line!(1), f!(5u32));",
    ),
    # The outermost call, whose column counts characters.
    (
        "m { ($x:expr) => { n!($x) } } macro_rules! n { ($x:expr) => { g($x, line!(), column!()) } }",
        "é(m!(1));",
        "é(g(1, 2u32, 3u32));",
    ),
    ("m { () => { line!() + n!() } } macro_rules! line { () => { 7 } }", "x = m!();", "x = 7 + n!();"),
    ("m { () => { stringify!(line!()) } }", "x = m!();", "x = stringify!(line!());"),
)


def test(program):
    check_like(program, "fragments.TYPES", TYPES)
    check_like(program, "fragments.RECEIVERS", RECEIVERS)
    check_like(program, "fragments.SINGLE_OPERANDS", SINGLE_OPERANDS)
    check_like(program, "fragments.OPERANDS", OPERANDS)
    check_like(program, "fragments.STATEMENTS", STATEMENTS)
    check_like(program, "fragments.BUILTINS", BUILTINS)
