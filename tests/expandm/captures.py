"""Names that hygiene keeps apart. They are worked out by hand, by the rules of hygiene."""
from expandm import check_becomes, check_like, defined, joined, objects

# A definition, a call of it, and the notes: each with its line (0 for the definition, 1 for the call) and its byte in that line.
ROWS = (
    (
        "m { ($x:ident) => { let $x = 1; a + $x } }",
        "m!(a);",
        "0:45 this `a` is the one that the call binds; 1:3 `a` is bound here; ",
    ),
    ("m { ($x:expr) => { let a = 1; a + $x } }", "m!(a);", ""),
    ("m { ($x:ident) => { let $x = 1; $x } }", "m!(a);", ""),
    ("m { ($x:ident) => { let a = 1; $x::b } }", "m!(a);", ""),
    ("m { ($x:ident) => { let a = 1; let $x = 2; $x } }", "m!(a);", ""),
    ("m { ($x:ident) => { { let $x = 1; } a } }", "m!(a);", ""),
    (
        "m { ($x:pat) => { f(|$x| a) } }",
        "m!(a);",
        "0:38 this `a` is the one that the call binds; 1:3 `a` is bound here; ",
    ),
    (
        "m { ($x:pat) => { match b { $x if c => a, _ => d } } }",
        "m!(Some(a));",
        "0:52 this `a` is the one that the call binds; 1:8 `a` is bound here; ",
    ),
    ("m { ($x:pat) => { for $x in a { b } } }", "m!(a);", ""),
    # A type may follow the name.
    (
        "m { ($x:ident) => { let $x: u8 = 1; a + $x } }",
        "m!(a);",
        "0:49 this `a` is the one that the call binds; 1:3 `a` is bound here; ",
    ),
    (
        "m { ($x:ident) => { f(|$x: u8| a) } }",
        "m!(a);",
        "0:44 this `a` is the one that the call binds; 1:3 `a` is bound here; ",
    ),
    ("m { ($x:ident) => { let S { $x: b } = c; a } }", "m!(a);", ""),
    # Words that may or may not be the macro's local.
    (
        "m { ($x:expr) => { let a = 1; S { a } + $x } }",
        "m!(a);",
        "0:47 `a` keeps its name, since this may be the one that a macro binds; 0:36 `a` is bound here; ",
    ),
    (
        'm { ($x:expr) => { let a = 1; f!("{a}", $x) } }',
        "m!(a);",
        "0:46 `a` keeps its name, since this may be the one that a macro binds; 0:36 `a` is bound here; ",
    ),
    # A string of the template: the names in it are the local, however often, and however its brace is written.
    (
        'm { ($x:expr) => { let a = 1; f!("{a} {a:?} {:a$}", $x) } }',
        "m!(a);",
        "0:46 `a` keeps its name, since this may be the one that a macro binds; 0:36 `a` is bound here; ",
    ),
    (
        r'm { ($x:expr) => { let a = 1; f!("\u{7b}a}", $x) } }',
        "m!(a);",
        "0:46 `a` keeps its name, since this may be the one that a macro binds; 0:36 `a` is bound here; ",
    ),
    (
        r'm { ($x:expr) => { let a = 1; f!("\x7ba}", $x) } }',
        'm!(f!("{a}"));',
        "0:46 `a` keeps its name, since this may be the one that a macro binds; 0:36 `a` is bound here; ",
    ),
    ('m { ($x:expr) => { let a = 1; f!("a {}a a", $x) + a } }', "m!(a);", ""),
    ('m { ($x:expr) => { let a = 1; f!("{a}", $x) } }', "m!(b);", ""),
    ("m { ($x:expr) => { let a = 1; S { a } + $x } }", "m!(b);", ""),
    ("m { ($x:expr) => { fn f(a: u8) { a } $x } }", "m!(a);", ""),
    # Names of several functions. None meets another context's in a local's scope.
    (
        "m { ($b:ident) => { fn f(a: u8) -> u8 { a } fn g() -> u8 { let a = 2; a } fn $b(a: u8) -> u8 { let b = a; b } } }",
        "m!(a);",
        "",
    ),
    ("m { ($x:expr) => { { let a = 1; f(a); } a + $x } }", "m!(a);", ""),
    # After the scope of a local, its name isn't the local.
    (
        "m { ($x:expr) => { { let a = 1; f(a, $x); } a } }",
        "m!(a);",
        "0:57 `a` keeps its name, since this may be the one that a macro binds; 0:38 `a` is bound here; ",
    ),
    # A call that may be a pattern: a name that it binds is a local of the call alone.
    (
        "m { () => { a } }",
        'let m!() = 2; f!("{a}");',
        "1:17 `a` keeps its name, since this may be the one that a macro binds; 0:25 `a` is bound here; ",
    ),
    (
        "m { () => { Some(a) } }",
        "if let m!() = b { f(a); }",
        "1:20 `a` keeps its name, since this may be the one that a macro binds; 0:30 `a` is bound here; ",
    ),
    (
        "m { ($x:pat) => { (a, $x) } }",
        "match c { m!(b) => a + b }",
        "1:19 `a` keeps its name, since this may be the one that a macro binds; 0:32 `a` is bound here; ",
    ),
    (
        "m { () => { a } }",
        "for m!() in b { f(a); }",
        "1:18 `a` keeps its name, since this may be the one that a macro binds; 0:25 `a` is bound here; ",
    ),
    ("m { () => { a } }", "let m!() = 2; f(b);", ""),
    ("m { () => { a } }", "let b = m!(); f(a);", ""),
    ("m { () => { A } }", "match b { m!() => A }", ""),
    ("m { ($x:pat) => { $x } }", "let m!(a) = 2; f(a);", ""),
)

# Strings that name `a` if they are formats, and strings that don't.
STRINGS = (
    '"{a}"',
    '"{a:?}"',
    '"{:a$}"',
    '"{:>a$}"',
    '"{:0a$}"',
    '"{b:.a$}"',
    '"{b:c$.a$}"',
    '"{b} {a}"',
    'r#"{a}"#',
    r'"\u{7b}a}"',
    r'"\x7Ba}"',
    r'"{:a\u{24}}"',
    r'"{:a\x24}"',
)
OTHER_STRINGS = ('"a"', '"{}a"', '"{b}a{c}"', '"{ab} {ba} {a_1}"', '"{:?} a: {}"', r'"\u{61}a"', 'b"{a}"', "'a'")

# A definition, the text after it, and the expansion of that text. Locals and labels of the macro are renamed if other words have their
# names. The white space of the text is the printer's choice.
RENAMED = (
    ("m { ($x:expr) => {{ let a = 1; a + $x }} }", "y = m!(a);", "y = {\n    let a_1 = 1;\n    a_1 + a\n};"),
    ("m { ($x:expr) => {{ let a = 1; a + $x }} }", "y = m!(b);", "y = {\n    let a = 1;\n    a + b\n};"),
    (
        "m { ($x:expr) => {{ let a = $x; a }} }",
        "y = m!(m!(a));",
        "y = {\n    let a_1 = ({\n        let a_2 = a;\n        a_2\n    });\n    a_1\n};",
    ),
    (
        "m { ($x:expr) => {{ let a = 1; $x + a }} }",
        "y = m!(a + a_1);",
        "y = {\n    let a_2 = 1;\n    (a + a_1) + a_2\n};",
    ),
    (
        "m { ($x:expr) => { 'a: loop { $x } } }",
        "'a: loop { m!(break 'a) }",
        "'a: loop { 'a_1: loop {\n    (break 'a)\n} }",
    ),
    ("m { ($x:expr) => { let a = $x; } }", "{ m!(1); f(a) }", "{ let a_1 = 1; f(a) }"),
    ("m { ($x:expr) => { let a = $x; } }", "{ m!(1); f(b) }", "{ let a = 1; f(b) }"),
    ("m { ($x:expr) => { let a = $x; } }", "{ f(a); m!(1); }", "{ f(a); let a = 1; }"),
    ("m { ($x:expr) => { { let a = $x; } } }", "{ m!(1); f(a) }", "{ {\n    let a = 1;\n}; f(a) }"),
    ("m { ($x:expr) => { |a| $x + a } }", "y = m!(a);", "y = |a_1| a + a_1;"),
    (
        "m { ($x:expr) => { match b { Some(a) => a, _ => $x } } }",
        "y = m!(a);",
        "y = match b {\n    Some(a_1) => a_1, _ => a\n};",
    ),
    ("m { ($x:expr) => { for (a, b) in c { $x } } }", "m!(f(b));", "for (a, b_1) in c {\n    f(b)\n};"),
    ("m { ($x:expr) => { if let Some(a) = $x { a } } }", "m!(a.b);", "if let Some(a_1) = a.b {\n    a_1\n};"),
    (
        "m { ($n:ident) => { macro_rules! $n { ($x:expr) => {{ let a = $x; a }} } } }",
        "m!(n); y = n!(a);",
        "macro_rules! n {\n    ($x:expr) => {\n        {\n            let a = $x;\n            a\n        }\n    }\n"
        "} y = {\n    let a_1 = a;\n    a_1\n};",
    ),
    (
        "m { ($n:ident $i:ident) => { macro_rules! $n { () => {{ let $i = 1; a + $i }} } } }",
        "m!(n b); y = n!();",
        "macro_rules! n {\n    () => {\n        {\n            let b = 1;\n            a + b\n        }\n    }\n"
        "} y = {\n    let b = 1;\n    a + b\n};",
    ),
    # A string has the names that a format uses from its surroundings.
    *(
        (
            "m { ($x:tt) => {{ let a = 1; f!(a, $x) }} }",
            f"y = m!({text});",
            f"y = {{\n    let a_1 = 1;\n    f!(a_1, {text})\n}};",
        )
        for text in STRINGS
    ),
    *(
        (
            "m { ($x:tt) => {{ let a = 1; f!(a, $x) }} }",
            f"y = m!({text});",
            f"y = {{\n    let a = 1;\n    f!(a, {text})\n}};",
        )
        for text in OTHER_STRINGS
    ),
    (
        "m { ($x:expr, $y:tt) => {{ let a = $x; f!(a, $y) }} }",
        'y = m!(a, "{a_1} {b_2} {:a_3$}");',
        'y = {\n    let a_2 = a;\n    f!(a_2, "{a_1} {b_2} {:a_3$}")\n};',
    ),
    (
        'm { ($x:expr) => {{ let a = $x; f!(a, "{a_1}") }} }',
        "y = m!(a);",
        'y = {\n    let a_2 = a;\n    f!(a_2, "{a_1}")\n};',
    ),
    ("m { ($x:expr) => { let a = $x; } }", '{ m!(1); f!("{a}") }', '{ let a_1 = 1; f!("{a}") }'),
    ("m { ($x:expr) => { let a = $x; } }", '{ m!(1); { f!("{:.a$}") } }', '{ let a_1 = 1; { f!("{:.a$}") } }'),
    ("m { ($x:expr) => { let a = $x; } }", '{ m!(1); f!("{b} a") }', '{ let a = 1; f!("{b} a") }'),
    ("m { ($x:expr) => { let a = $x; } }", '{ m!(1); #[doc = "{a}"] fn f() {} }', '{ let a = 1; #[doc = "{a}"] fn f() {} }'),
    ("m { ($x:expr) => { { let a = $x; } } }", '{ m!(1); f!("{a}") }', '{ {\n    let a = 1;\n}; f!("{a}") }'),
    ("m { ($i:ident $j:ident) => {{ let $i = 1; $j }} }", "y = m!(a a);", "y = {\n    let a = 1;\n    a\n};"),
    # The names in the argument of a builtin macro that uses them as text, or as names of other things, are unchanged.
    (
        "m { ($x:expr) => {{ let a = $x; f(a, stringify!(a), std::stringify!((a + 1)), core::stringify!([a])) }} }",
        "y = m!(a);",
        "y = {\n    let a_1 = a;\n    f(a_1, stringify!(a), std::stringify!((a + 1)), core::stringify!([a]))\n};",
    ),
    (
        'm { ($x:expr) => {{ let a = $x; f(a, cfg!(a), concat!("{a}", "b"), offset_of!(S, a)) }} }',
        "y = m!(a);",
        'y = {\n    let a_1 = a;\n    f(a_1, cfg!(a), concat!("{a}", "b"), offset_of!(S, a))\n};',
    ),
    (
        "m { ($x:expr) => {{ let a = $x; stringify!(a) }} } macro_rules! stringify { ($e:expr) => { $e + 1 } }",
        "y = m!(a);",
        "y = {\n    let a_1 = a;\n    a_1 + 1\n};",
    ),
    # A name outside of the scope of the local of that name.
    ("m { ($x:expr) => { f(|a| a) + a + $x } }", "y = m!(a);", "y = f(|a| a) + a + a;"),
    (
        "m { ($x:expr) => { (match 4 { a => a }) + a + $x } }",
        "y = m!(a);",
        "y = (match 4 {\n    a => a\n}) + a + a;",
    ),
    (
        "m { ($x:expr) => { (match 4 { 1 => 2, a if a > 3 => a, _ => a }) + $x } }",
        "y = m!(a);",
        "y = (match 4 {\n    1 => 2, a if a > 3 => a, _ => a\n}) + a;",
    ),
    (
        "m { ($x:expr) => {{ macro_rules! n { () => { $x } } let a = 1; n!() + a }} }",
        "y = m!((|a: u8| a)(a));",
        "y = {\n    macro_rules! n {\n        () => {\n            (|a: u8| a)(a)\n        }\n    }\n"
        "    let a_1 = 1;\n    (|a: u8| a)(a) + a_1\n};",
    ),
    # A local that a `match` in its own value binds too.
    (
        "m { ($x:expr) => {{ let a = match $x { Some(a) => a, None => 0 }; f(a) }} }",
        "y = m!(a);",
        "y = {\n    let a_1 = match a {\n        Some(a_1) => a_1, None => 0\n    };\n    f(a_1)\n};",
    ),
)

# Names of templates that mean a local of the file in the text, and not in rustc: a text in two lines, and the notes as above.
SHADOWED = (
    (
        "fn main() { let y = 1; macro_rules! m { () => { y } }\n{ let y = 5; println!(\"{}\", m!()); drop(y) } }",
        "1:28 the name `y` is the local that is in scope here; 1:6 `y` is bound here; ",
    ),
    # An item of the expansion.
    (
        'macro_rules! m { () => { fn a() -> i32 { 5 } println!("{}", a()); } }\nfn main() { let a = 20; m!(); println!("{}", a); }',
        "1:24 the name `a` is the local that is in scope here; 1:16 `a` is bound here; ",
    ),
    # An item of the file.
    (
        "fn a() -> u8 { 1 } macro_rules! m { () => { a() } }\nfn f(a: fn() -> u8) -> u8 { m!() }",
        "1:28 the name `a` is the local that is in scope here; 1:5 `a` is bound here; ",
    ),
    (
        "fn a() -> u8 { 1 } macro_rules! m { () => { a() } }\nfn f(b: Option<fn() -> u8>) -> u8 { if let Some(a) = b { m!() } else { m!() } }",
        "1:57 the name `a` is the local that is in scope here; 1:48 `a` is bound here; ",
    ),
    (
        "fn a() -> u8 { 1 } macro_rules! m { () => { a() } }\nfn f() { g(|a: fn() -> u8| m!()); h(|b: u8, (c, a): (u8, u8)| m!()) }",
        "1:27 the name `a` is the local that is in scope here; 1:12 `a` is bound here; "
        "1:62 the name `a` is the local that is in scope here; 1:48 `a` is bound here; ",
    ),
    (
        "fn a() -> u8 { 1 } macro_rules! m { () => { a() } }\nfn f(b: B) { match b { B(a) => m!(), _ => m!() }; for a in b { m!() } m!() }",
        "1:31 the name `a` is the local that is in scope here; 1:25 `a` is bound here; "
        "1:63 the name `a` is the local that is in scope here; 1:54 `a` is bound here; ",
    ),
    # A local of an earlier call.
    (
        "macro_rules! l { () => { let a = 3; drop(a); } } fn a() -> u8 { 1 }\nmacro_rules! m { () => { a() } } fn f() { l!(); m!(); } fn g() { { l!(); } m!(); }",
        "1:48 the name `a` is the local that is in scope here; 0:29 `a` is bound here; ",
    ),
    # The local is in scope where the macro is defined, or isn't in scope at the call.
    ("fn f(a: u8) { macro_rules! m { () => { a } }\nm!(); { let b = a; m!(); } }", ""),
    ("fn a() -> u8 { 1 } macro_rules! m { () => { a() } }\nfn f(a: u8) -> u8 { a } fn g() -> u8 { { let a = 1; } m!() }", ""),
    ("fn a() -> u8 { 1 } macro_rules! m { () => { a() } }\nfn f() { g(|a: u8| a, m!()); let a = m!(); }", ""),
    # Names that are no values, or that the template binds.
    ("macro_rules! m { () => { x.a; x.a(); a::b; b::a; a!(); S { a: 1 }; 'a: loop {} } }\nfn f(a: u8) { m!(); }", ""),
    ("macro_rules! m { () => { #[a] fn b(x: u8) {} macro_rules! c { (a) => { a } } } }\nfn f(a: u8, u8: u8) { m!(); }", ""),
    ("macro_rules! m { () => { let a = 1; a; g(|a: u8| a); fn h(a: u8) -> u8 { a } } }\nfn f(a: u8) { m!(); }", ""),
    ("macro_rules! m { ($x:expr) => { $x } }\nfn f(a: u8) { m!(a); }", ""),
)

# Calls in patterns whose scope has a name that the template binds: as above.
PATTERN_CALLS = (
    (
        "macro_rules! m { () => { a } }\nfn f(a: u8, b: Option<u8>) { if let Some(m!()) = b { a } }",
        "1:41 `a` keeps its name, since `m!` is in a pattern here that may meet the name; 0:25 `a` is bound here; ",
    ),
    (
        "macro_rules! m { () => { a } }\nfn f((m!(), b): (u8, u8)) { { a } }",
        "1:6 `a` keeps its name, since `m!` is in a pattern here that may meet the name; 0:25 `a` is bound here; ",
    ),
    (
        "macro_rules! m { () => { S { a, b: c } } }\nfn f() { match x { T(m!()) => (a, b), U(m!()) => c } }",
        "1:21 `a` keeps its name, since `m!` is in a pattern here that may meet the name; 0:29 `a` is bound here; "
        "1:40 `c` keeps its name, since `m!` is in a pattern here that may meet the name; 0:35 `c` is bound here; ",
    ),
    (
        "macro_rules! m { () => { a } }\nfn f(b: (u8, u8)) { let (m!(), a) = b; let (m!(), m!()) = b; }",
        "1:25 `a` keeps its name, since `m!` is in a pattern here that may meet the name; 0:25 `a` is bound here; "
        "1:44 `a` keeps its name, since `m!` is in a pattern here that may meet the name; 0:25 `a` is bound here; "
        "1:50 `a` keeps its name, since `m!` is in a pattern here that may meet the name; 0:25 `a` is bound here; ",
    ),
    ("macro_rules! m { () => { a } }\nfn f(b: Option<u8>) { if let Some(m!()) = b { aa + b.a_ } a }", ""),
    ("macro_rules! m { () => { a } }\nfn f(b: Option<u8>) { let Some(b) = m!(); a }", ""),
    ("macro_rules! m { ($a:ident) => { $a } }\nfn f(b: Option<u8>) { let Some(m!(a)) = b; a }", ""),
)

# The example of docs/EXPANDM.md: a text, and its expansion.
EXAMPLES = (
    (
        """\
macro_rules! swap_sum { ($x:expr, $y:expr) => {{ let a = $x; let b = $y; b - a }}; }
fn f(a: i32) -> i32 { swap_sum!(a, swap_sum!(1, 2)) }
""",
        """\
macro_rules! swap_sum { ($x:expr, $y:expr) => {{ let a = $x; let b = $y; b - a }}; }
fn f(a: i32) -> i32 { {
    let a_1 = a;
    let b_1 = ({
        let a_2 = 1;
        let b_2 = 2;
        b_2 - a_2
    });
    b_1 - a_1
} }
""",
    ),
)


def noted(text, report):
    """The line of a report, from 0, the byte in that line, and its message without the location."""
    before = text.encode()[: report["spans"][0]["byte_start"]]
    line, byte = before.count(b"\n"), len(before.rpartition(b"\n")[2])
    return f"{line}:{byte} {report['message'].removeprefix('in the expansion of `m!` ')}"


def check_notes(program, table, row, text, want):
    """A text has these notes, calls nine deep in others too."""
    ran = program.run(["--depth", "9", "--json", "a.rs"], {"a.rs": text})
    found = joined(noted(text, report) for report in objects(ran.err))
    program.check(table, row, (ran.status, found), (0, want))


def test(program):
    for row in ROWS:
        rules, call, want = row
        check_notes(program, "captures.ROWS", row, defined(rules, call), want)
    for row in SHADOWED:
        check_notes(program, "captures.SHADOWED", row, *row)
    for row in PATTERN_CALLS:
        check_notes(program, "captures.PATTERN_CALLS", row, *row)
    check_like(program, "captures.RENAMED", RENAMED)
    for row in EXAMPLES:
        check_becomes(program, "captures.EXAMPLES", row, *row)
