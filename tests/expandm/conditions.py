"""The expansions of texts with `#[cfg]`, by the arguments of a run."""

# The text before each row's text.
M = "#[cfg(a)] macro_rules! m { () => { 1 }; }\n#[cfg(not(a))] macro_rules! m { () => { 2 }; }\n"

# Arguments, a text, its expansion, and the status.
ROWS = (
    ("a.rs", "x = m!();", "x = 2;", 0),
    ("--cfg a a.rs", "x = m!();", "x = 1;", 0),
    ('--cfg a="b" a.rs', "x = m!();", "x = 2;", 0),
    ("a.rs", "#[cfg(b)] const A: u8 = m!(); const B: u8 = m!();", "#[cfg(b)] const A: u8 = m!(); const B: u8 = 2;", 0),
    ("--cfg b a.rs", "#[cfg(b)] const A: u8 = m!();", "#[cfg(b)] const A: u8 = 2;", 0),
    (
        "a.rs",
        "#[cfg(unix)] mod a { x!(m!()); y = m!(); } #[cfg(windows)] mod a { y = m!(); }",
        "#[cfg(unix)] mod a { x!(m!()); y = 2; } #[cfg(windows)] mod a { y = m!(); }",
        0,
    ),
    (
        "--target x86_64-pc-windows-msvc a.rs",
        "#[cfg(unix)] mod a { y = m!(); } #[cfg(windows)] mod a { y = m!(); }",
        "#[cfg(unix)] mod a { y = m!(); } #[cfg(windows)] mod a { y = 2; }",
        0,
    ),
    ("a.rs", "#[cfg(test)] mod a { y = m!(); }", "#[cfg(test)] mod a { y = m!(); }", 0),
    ("--test a.rs", "#[cfg(test)] mod a { y = m!(); }", "#[cfg(test)] mod a { y = 2; }", 0),
    (
        "--features c,b a.rs",
        '#[cfg(feature = "b")] m!(); #[cfg(feature = "d")] m!();',
        '2; #[cfg(feature = "d")] m!();',
        0,
    ),
    ("a.rs", "fn f() { #[cfg(b)] let a = m!(); m!() }", "fn f() { #[cfg(b)] let a = m!(); 2 }", 0),
    ("a.rs", "match x { #[cfg(b)] A { c } => m!(), D => m!() }", "match x { #[cfg(b)] A { c } => m!(), D => 2 }", 0),
    ("a.rs", "mod a { #![cfg(b)] y = m!(); } m!();", "mod a { #![cfg(b)] y = m!(); } 2;", 0),
    ("a.rs", "#[cfg_attr(b, cfg(c))] m!();", "2;", 0),
    ("--cfg b a.rs", "#[cfg_attr(b, cfg(c))] m!();", "#[cfg_attr(b, cfg(c))] m!();", 0),
    ("a.rs", "#[cfg(a b)] m!();", "2;", 1),
)


def test(program):
    for row in ROWS:
        words, text, want, status = row
        ran = program.run(words.split(), {"a.rs": M + text})
        program.check("conditions.ROWS", row, (ran.status, ran.out, ran.err != ""), (status, M + want, status != 0))
