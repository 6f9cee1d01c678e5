"""Calls of macros that are certainly unknown, with the messages and locations of rustc 1.95. Calls of macros that may come from
elsewhere."""
from expandm import objects

PAIR = "macro_rules! pair { ($a:expr) => { $a } }\n"
MAIN = "fn main() { paer!(1); }"
CANNOT = "2:13 error: cannot find macro `paer` in this scope"

# A text; its reports.
ROWS = (
    (
        PAIR + MAIN,
        [CANNOT, "2:13 help: a macro with a similar name exists: `pair`", "1:14 note: similarly named macro `pair` defined here"],
    ),
    # A name that differs in case alone is closer than any other name.
    (
        "macro_rules! PAOR { () => {} } macro_rules! pair { () => {} }\nfn main() { PAIR!(); }",
        [
            "2:13 error: cannot find macro `PAIR` in this scope",
            "2:13 help: a macro with a similar name exists: `pair`",
            "1:45 note: similarly named macro `pair` defined here",
        ],
    ),
    # No help names a macro that isn't in scope yet.
    (MAIN + "\nmacro_rules! pair { () => {} }", ["1:13 error: cannot find macro `paer` in this scope"]),
    ("\nfn main() { hello!(); }", ["2:13 error: cannot find macro `hello` in this scope"]),
    (
        "\nfn main() { vecc![1]; }",
        ["2:13 error: cannot find macro `vecc` in this scope", "2:13 help: a macro with a similar name exists: `vec`"],
    ),
    # Paths into the standard library and within the file bring nothing.
    ("use std::collections::HashMap; use crate::a::b; mod a { pub fn b() {} }\n" + MAIN, [CANNOT]),
    ("fn f() -> usize { std::mem::size_of::<Vec<u8>>() + u8::MAX as usize + Vec::<u8>::new().len() }\n" + MAIN, [CANNOT]),
    ("extern \"C\" { fn f(); }\n" + MAIN, [CANNOT]),
    # A call in an expansion.
    (
        "macro_rules! outer { () => { hello!() } }\nfn main() { outer!(); }",
        ["1:30 error: cannot find macro `hello` in this scope", "2:13 note: in this macro invocation"],
    ),
)

# Items that may bring a macro of that name into a program that calls it.
OPEN = (
    "use a::*;",
    "use crate::a::*; mod a {}",
    "use a::paer;",
    "use crate::a::pair as paer; mod a {}",
    "#[macro_use] extern crate a;",
    "extern crate a;",
    "#[macro_use] mod a {}",
    "mod a { include!(\"b.rs\"); }",
    "#[a::b] fn f() {}",
    "#[derive(a::B)] struct S;",
    "a::items!();",
    "::a::items!();",
    "macro_rules! define { ($n:ident) => { macro_rules! $n { () => {} } } }",
    "macro_rules! define { () => { #[macro_export] macro_rules! paer { ($x:expr) => {} } } }",
)

# A file that may be a module, and names that the standard library has.
OTHERS = (
    "fn f() { paer!(1); }",
    "fn main() { println!(); vec![1]; std::dbg!(1); is_x86_feature_detected!(\"avx\"); concat_bytes!(1); }",
    "fn main() { #[cfg(any())] paer!(1); }",
)


# So many calls of unknown macros; the first ones name a similar macro.
MANY = 120


def reports(program, words, files):
    """The reports of a run, each with its line and column."""
    found = objects(program.run(["--json", *words], files).err)
    places = [it["spans"][0] for it in found]
    return [f"{at['line_start']}:{at['column_start']} {it['level']}: {it['message']}" for it, at in zip(found, places)]


def test(program):
    for row in ROWS:
        text, want = row
        program.check("unknown.ROWS", row, reports(program, ["a.rs"], {"a.rs": text}), want)
    for text in OPEN:
        found = reports(program, ["a.rs"], {"a.rs": f"{text}\n{MAIN}", "b.rs": ""})
        program.check("unknown.OPEN", text, [it for it in found if "cannot find" in it], [])
    for text in OTHERS:
        program.check("unknown.OTHERS", text, reports(program, ["a.rs"], {"a.rs": text}), [])
    # With a second file, and with nested calls left, the macro may be another one.
    files = {"a.rs": MAIN, "b.rs": "fn f() {}", "m.rs": "mod b;\n" + MAIN}
    for words in (["b.rs", "a.rs"], ["m.rs"], ["--once", "a.rs"], ["--extern", "b=b.rs", "a.rs"]):
        program.check("unknown.words", words, reports(program, words, files), [])
    found = reports(program, ["a.rs"], {"a.rs": PAIR + "fn main() {\n" + "paer!(1);\n" * MANY + "}"})
    counts = [sum(level in it for it in found) for level in (" error: ", " help: ", " note: ")]
    program.check("unknown.MANY", MANY, counts, [MANY, 100, 100])
