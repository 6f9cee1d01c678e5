"""Calls beside operators, groups and statements: the delimiters that an expansion gets so that the text means the same as the call.
Worked out by hand, by the precedences of the Rust Reference.
"""
from expandm import check_like

# A definition, the text after it, and the expansion of that text.
ROWS = (
    ("m { ($x:expr) => { |y| y + $x } }", "f = m!(1)(2);", "f = (|y| y + 1)(2);"),
    (
        "m { ($a:expr, $b:expr) => { $a && $b } }",
        "x = m!(a, b)[0]; m!(a, b)[0] = 1;",
        "x = (a && b)[0]; (a && b)[0] = 1;",
    ),
    (
        "m { ($a:expr, $b:expr) => { $a && $b } }",
        "x = m!(a, b).c()?; x = m!(a, b)?;",
        "x = (a && b).c()?; x = (a && b)?;",
    ),
    (
        "m { ($a:expr, $b:expr) => { $a && $b } }",
        "x = c == m!(a, b); x = c != m!(a, b);",
        "x = c == (a && b); x = c != (a && b);",
    ),
    (
        "m { ($a:expr, $b:expr) => { $a && $b } }",
        "x = c <= m!(a, b); x = c >= m!(a, b);",
        "x = c <= (a && b); x = c >= (a && b);",
    ),
    (
        "m { ($a:expr, $b:expr) => { $a && $b } }",
        "match x { y => m!(a, b), z => !m!(a, b) }",
        "match x { y => a && b, z => !(a && b) }",
    ),
    (
        "m { ($a:expr, $b:expr) => { $a && $b } }",
        "let x: V<u8> = m!(a, b); f(m!(a, b), (m!(a, b)))",
        "let x: V<u8> = a && b; f(a && b, (a && b))",
    ),
    ("m { ($x:expr) => { $x; } }", "f(m!(1)); [m!(2)]; m!(3).f(); x = m!(4);", "f(1); [2]; 3.f(); x = 4;"),
    ("m { ($x:expr) => { let y = $x; y + 1 } }", "x = m!(2);", "x = {\n    let y = 2;\n    y + 1\n};"),
    (
        "m { ($x:expr) => { let y = $x; y } } macro_rules! n { ($e:expr) => { $e; } }",
        "n!(m!(2));",
        "({\n    let y = 2;\n    y\n});",
    ),
    (
        "m { ($a:ident $b:ident) => { fn $a() {} fn $b() {} } }",
        "x = m!(a b);",
        "x = {\n    fn a() {}\n    fn b() {}\n};",
    ),
    ("m { ($n:ident) => { struct $n; } }", "#[a] m! { B } #![c] m! { D }", "#[a] struct B; #![c] struct D;"),
    (
        "m { ($x:expr) => { a + $x } }",
        "{ m! { 1 } -b } { m! { 1 } (b) } { m! { 1 }.c() }",
        "{ a + 1; -b } { a + 1; (b) } { (a + 1).c() }",
    ),
    ("m { () => { { 1 } } }", "{ m!() + 2 }", "{ ({\n    1\n}) + 2 }"),
    ("m { ($x:expr) => { n!($x) } } macro_rules! n { ($x:expr) => { $x; } }", "x = m!(1) + 2;", "x = 1 + 2;"),
    ("m { ($x:ident) => { $x } }", "x = m!(a)(1)[2].b + -m!(c);", "x = a(1)[2].b + -c;"),
    ("m { ($t:ty) => { $t } }", "let x: m!(V<u8>) = y; [m!(V<u8>); 2]", "let x: V<u8> = y; [V<u8>; 2]"),
)

# Such rows for templates that end in a `;`. rustc takes the value of a call in parentheses or brackets, and ignores this `;`.
# `rustc -Zunpretty=expanded` shows this. A call in braces at the end of a block is a statement.
SEMICOLONS = (
    ("m { () => { 31; } }", "fn f() -> u8 { m!() } fn g() -> u8 { m![] }", "fn f() -> u8 { 31 } fn g() -> u8 { 31 }"),
    ("m { () => { 31; } }", "x = { m!() }; x = if a { m!() } else { 4 };", "x = { 31 }; x = if a { 31 } else { 4 };"),
    ("m { () => { 31; } }", "x = || m!(); x = match y { 1 => m!(), _ => m! {} };", "x = || 31; x = match y { 1 => 31, _ => 31 };"),
    ("m { () => { 31; } }", "x = [0; m!()]; x = { m!() + 1 };", "x = [0; 31]; x = { 31 + 1 };"),
    ("m { () => { 31; } }", "x = { m! {} }; { m!(); } { m!(); a }", "x = { 31; }; { 31; } { 31; a }"),
    ("m { () => { 31 } }", "x = { m! {} }; { m!(); }", "x = { 31 }; { 31; }"),
    ("m { () => { 31; } }", "x = { #[allow(unused)] m!() };", "x = { 31 };"),
    ("m { ($x:ident) => { $x = 4; } }", "fn f(mut x: u8) { m!(x) }", "fn f(mut x: u8) { x = 4 }"),
    # The calls of an expansion are where their call is.
    ("m { () => { n!() } } macro_rules! n { () => { 31; } }", "x = { m!() }; x = { m! {} };", "x = { 31 }; x = { 31; };"),
    ("m { () => { n!(); } } macro_rules! n { () => { 31; } }", "x = { m!() }; { m!(); }", "x = { 31 }; { 31; }"),
    ("m { () => { n! {} } } macro_rules! n { () => { 31; } }", "x = { m!() };", "x = { 31 };"),
    (
        "m { () => { a; n!() } } macro_rules! n { () => { 31; } }",
        "x = { m! {} };",
        "x = { a;\n31; };",
    ),
    (
        "m { () => { { n!() } } } macro_rules! n { () => { 31; } }",
        "x = m!();",
        "x = {\n    31\n};",
    ),
    # rustc refuses these, since they are no single expression.
    ("m { () => { a; b; } }", "x = { m!() };", "x = { a;\nb; };"),
    ("m { () => { 31;; } }", "x = { m!() };", "x = { 31;; };"),
    ("m { () => { let a = 1; } }", "x = { m!() };", "x = { let a = 1; };"),
)

# Blocks at the start of a value, and braces that would begin the block of an `if`.
BLOCKS = (
    ("m { ($b:expr) => { $b - 1 } }", "fn f() -> u8 { m!({ 4 }) }", "fn f() -> u8 { ({\n    4\n} - 1) }"),
    (
        "m { ($f:expr) => { $f(2) } } macro_rules! n { ($f:expr) => { -$f(1) } }",
        "x = { m!({ a }) }; x = { n!({ b }) }; x = { m!(c) };",
        "x = { ({\n    a\n} (2)) }; x = { (-{\n    b\n} (1)) }; x = { c(2) };",
    ),
    (
        "m { () => { { 4 } - 1 } }",
        "match x { 1 => m!(), _ => m!() } x = m!();",
        "match x { 1 => ({\n    4\n} - 1), _ => ({\n    4\n} - 1) } x = {\n    4\n} - 1;",
    ),
    ("m { () => { { 1 } } }", "match x { 1 => m!() + 2, _ => m!() }", "match x { 1 => ({\n    1\n}) + 2, _ => {\n    1\n} }"),
    (
        "p { () => { P { a: 1 } } }",
        "match p!() { P { a } => a } x = p!();",
        "match (P {\n    a: 1\n}) { P { a } => a } x = P {\n    a: 1\n};",
    ),
    (
        "p { () => { P { a: 1 } } }",
        "if let P { a: 1 } = p!() { } while p!() == y { } match x { y if p!().b => p!() }",
        "if let P { a: 1 } = (P {\n    a: 1\n}) { } while (P {\n    a: 1\n}) == y { } match x { y if (P {\n    a: 1\n}).b => P {\n    a: 1\n} }",
    ),
    ("m { () => { { 2 } } }", "for i in 0..m!() { } if m!() { }", "for i in 0..({\n    2\n}) { } if {\n    2\n} { }"),
    ("r { () => { return } }", "if r!() { } x = r!()..9; x = a || r!(); r!();", "if (return) { } x = (return)..9; x = a || return; return;"),
    (
        "m { ($e:expr) => { match $e { _ => None } } }",
        "let Some(z) = m!(1) else { return }; let z = m!(1);",
        "let Some(z) = (match 1 {\n    _ => None\n}) else { return }; let z = match 1 {\n    _ => None\n};",
    ),
    (
        "m { () => { n!() } } macro_rules! n { () => { P {} } }",
        "let z = m!() else { return };",
        "let z = (P {}) else { return };",
    ),
    # An attribute may be on a tail, and not on an expression in parentheses.
    (
        "m { () => { #[a] { 3 } } }",
        "x = { m!().max(2) }; x = 1 + m!(); x = -m!()?;",
        "x = { {\n    #[a] {\n        3\n    }\n}.max(2) }; x = 1 + {\n    #[a] {\n        3\n    }\n};"
        " x = -{\n    #[a] {\n        3\n    }\n}?;",
    ),
    ("m { () => { 'x: { break 'x 3 } } }", "loop { break m!() }", "loop { break ('x: {\n    break 'x 3\n}) }"),
)

# Patterns, types, and the arguments of macros of the standard library.
PATTERNS = (
    ("p { () => { 3 | 4 } }", "match x { z @ p!() => z, &p!() => 1, p!() => 2 }", "match x { z @ (3 | 4) => z, &(3 | 4) => 1, 3 | 4 => 2 }"),
    ("p { () => { 1..=5 } }", "match x { &p!() => 1, z @ p!() => 2 }", "match x { &(1..=5) => 1, z @ (1..=5) => 2 }"),
    ("p { () => { mut x } }", "match x { &p!() => 1, Some(p!()) => 2 }", "match x { &(mut x) => 1, Some(mut x) => 2 }"),
    ("p { () => { A::B } }", "match x { &p!() => 1, z @ p!() => 2 }", "match x { &A::B => 1, z @ A::B => 2 }"),
    ("t { () => { dyn A + B } }", "let x: &t!() = y; let x: Box<t!()> = y;", "let x: &(dyn A + B) = y; let x: Box<dyn A + B> = y;"),
    (
        "t { () => { dyn A + B } }",
        "let x: &mut t!() = y; let x: &'a t!() = y; let x: &'a mut t!() = y; let x: *const t!() = y;",
        "let x: &mut (dyn A + B) = y; let x: &'a (dyn A + B) = y; let x: &'a mut (dyn A + B) = y; let x: *const (dyn A + B) = y;",
    ),
    ("m { () => { a + b } }", "x = &mut m!(); x = &raw const m!();", "x = &mut (a + b); x = &raw const (a + b);"),
    ("t { () => { u8 } }", "x = 3 as t!() << 1; x = 3 as t!() + 1;", "x = 3 as (u8) << 1; x = 3 as u8 + 1;"),
    ("t { () => { a::T } }", "x = 3 as t!() < 1; x = 3 as t!() + 1;", "x = 3 as (a::T) < 1; x = 3 as a::T + 1;"),
    ("m { ($x:ident) => { $x = 3 } }", 'println!("{:?}", m!(x)); f(m!(x));', 'println!("{:?}", (x = 3)); f(x = 3);'),
    (
        "m { ($x:ident) => { n!($x) } } macro_rules! n { ($x:ident) => { $x = 3 } }",
        'println!("{:?}", m!(x)); m!(x);',
        'println!("{:?}", (x = 3)); x = 3;',
    ),
    # The last `;` of an expansion that is an argument, also as a fragment.
    ("m { () => { 1; } }", 'println!("{}", m!());', 'println!("{}", 1);'),
    (
        "m { () => { 1; } } macro_rules! n { ($e:expr) => { print!(\"{}\", $e); print!(\"{}\", f($e + 2)); print!(\"{}\", { $e }) } }",
        "n!(m!());",
        'print!("{}", 1);\nprint!("{}", f(1 + 2));\nprint!("{}", {\n    1\n});',
    ),
    ("m { () => { a == b } }", 'println!("{:?}", m!()); assert!(m!());', 'println!("{:?}", a == b); assert!(a == b);'),
)

# Paths with their fields, calls and indices. Arguments after a field would make a method call of it.
OPERANDS = (
    ("m { () => { a::b } }", "x = -m!() + m!(); x = m!()(1)[2].c;", "x = -a::b + a::b; x = a::b(1)[2].c;"),
    ("m { () => { f(1).b[2].0 } }", "x = !m!() == m!().c; x = &m!();", "x = !f(1).b[2].0 == f(1).b[2].0.c; x = &f(1).b[2].0;"),
    ("m { () => { a.b } }", "x = m!()(1); x = m!()[1]; x = m!().c(1);", "x = (a.b)(1); x = a.b[1]; x = a.b.c(1);"),
    ("m { () => { a as u8 } }", "x = m!() + 1;", "x = (a as u8) + 1;"),
    ("m { () => { a..b } }", "x = m!().c;", "x = (a..b).c;"),
)


def test(program):
    for table, rows in (
        ("ROWS", ROWS),
        ("SEMICOLONS", SEMICOLONS),
        ("BLOCKS", BLOCKS),
        ("PATTERNS", PATTERNS),
        ("OPERANDS", OPERANDS),
    ):
        check_like(program, f"beside.{table}", rows)
