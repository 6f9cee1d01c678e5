"""The modules and `include!`s that calls become: their files are read, and the calls in them are expanded.

`tools/rustc/called-modules.py` compiles the crates of these rows, and their expansions, with rustc.
"""
from expandm import counted, files_of

ON = "macro_rules! on { ($($i:item)*) => { $($i)* } } "
ONE = "macro_rules! m { () => { 1 } } "
TWO = "macro_rules! m { () => { 2 } } "
IS_ONE = "const _: () = assert!(m!() == 1);"
BECOMES = "const _: () = assert!(1 == 1);"

# Crates that rustc compiles: the text of the root, src/lib.rs, and its expansion; the other files; and their expansions. A file is
# `PATH: TEXT`. Each file and each expansion has a `|` after it.
COMPILED = (
    # The module's file is in the folder of the call's module. Macros before the call are in scope in it.
    (ON + ONE + "on! { mod a; }", ON + ONE + "mod a;", f"src/a.rs: {IS_ONE}|", f"{BECOMES}|"),
    (ON + ONE + "on!(mod a;);", ON + ONE + "mod a;", f"src/a.rs: {IS_ONE}|", f"{BECOMES}|"),
    (ON + ONE + "on! { pub(crate) mod a; }", ON + ONE + "pub(crate) mod a;", f"src/a/mod.rs: {IS_ONE}|", f"{BECOMES}|"),
    (ON + ONE + "on! { mod a; } " + TWO, ON + ONE + "mod a; " + TWO, f"src/a.rs: {IS_ONE}|", f"{BECOMES}|"),
    (ON + ONE + "mod d { on! { mod a; } }", ON + ONE + "mod d { mod a; }", f"src/d/a.rs: {IS_ONE}|", f"{BECOMES}|"),
    (
        ON + ONE + "mod d;",
        ON + ONE + "mod d;",
        f"src/d.rs: on! {{ mod a; }}|src/d/a.rs: {IS_ONE}|",
        f"mod a;|{BECOMES}|",
    ),
    (
        ON + ONE + "on! { mod d { mod a; } }",
        ON + ONE + "mod d {\n    mod a;\n}",
        f"src/d/a.rs: {IS_ONE}|",
        f"{BECOMES}|",
    ),
    # A macro of another file looks for the module where it is called.
    (
        ONE + "#[macro_use] mod d; on!();",
        ONE + "#[macro_use] mod d; mod a;",
        f"src/d.rs: macro_rules! on {{ () => {{ mod a; }} }}|src/a.rs: {IS_ONE}|",
        f"macro_rules! on {{ () => {{ mod a; }} }}|{BECOMES}|",
    ),
    # The name of the module is an argument.
    (
        "macro_rules! on { ($n:ident) => { mod $n; } } " + ONE + "on!(a);",
        "macro_rules! on { ($n:ident) => { mod $n; } } " + ONE + "mod a;",
        f"src/a.rs: {IS_ONE}|",
        f"{BECOMES}|",
    ),
    # Attributes: `#[path]`, `cfg_attr`, `cfg`, `#[macro_use]`.
    (
        ON + ONE + 'on! { #[path = "c.rs"] mod a; }',
        ON + ONE + '#[path = "c.rs"] mod a;',
        f"src/c.rs: {IS_ONE}|",
        f"{BECOMES}|",
    ),
    (
        ON + ONE + 'mod d { on! { #[cfg_attr(all(), path = "c.rs")] mod a; } }',
        ON + ONE + 'mod d { #[cfg_attr(all(), path = "c.rs")] mod a; }',
        f"src/d/c.rs: {IS_ONE}|",
        f"{BECOMES}|",
    ),
    (
        "macro_rules! on { ($($i:item)*) => { $(#[cfg(all())] $i)* } } " + ONE + "on! { mod a; mod b; }",
        "macro_rules! on { ($($i:item)*) => { $(#[cfg(all())] $i)* } } " + ONE + "#[cfg(all())] mod a;\n#[cfg(all())] mod b;",
        f"src/a.rs: {IS_ONE}|src/b/mod.rs: {IS_ONE}|",
        f"{BECOMES}|{BECOMES}|",
    ),
    (ON + "on! { #[macro_use] mod a; } " + IS_ONE, ON + "#[macro_use] mod a; " + BECOMES, f"src/a.rs: {ONE}|", f"{ONE}|"),
    # Paths find macros of such a file, also before the call.
    (
        "mod b; " + ON + "on! { mod a; }",
        "mod b; " + ON + "mod a;",
        f"src/a.rs: {ONE}pub(crate) use m;|src/b.rs: const _: () = assert!(crate::a::m!() == 1);|",
        f"{ONE}pub(crate) use m;|{BECOMES}|",
    ),
    # Files ask for more files.
    (
        ON + ONE + "on! { mod a; }",
        ON + ONE + "mod a;",
        "src/a.rs: on! { mod b; }|src/a/b.rs: mod c; on! { on! { mod d; } }|"
        f"src/a/b/c.rs: {IS_ONE}|src/a/b/d.rs: {IS_ONE}|",
        f"mod b;|mod c; mod d;|{BECOMES}|{BECOMES}|",
    ),
    # The macro that asks for a file is in a file that another call asks for.
    (
        ON + ONE + "on! { #[macro_use] mod a; } more!(); " + IS_ONE,
        ON + ONE + "#[macro_use] mod a; mod b; " + BECOMES,
        f"src/a.rs: macro_rules! more {{ () => {{ mod b; }} }}|src/b.rs: {IS_ONE}|",
        f"macro_rules! more {{ () => {{ mod b; }} }}|{BECOMES}|",
    ),
    # A macro that the expansion defines before the module is in scope in it.
    (
        "macro_rules! on { () => { macro_rules! m { () => { 1 } } mod a; } } on!();",
        "macro_rules! on { () => { macro_rules! m { () => { 1 } } mod a; } } macro_rules! m {\n    () => {\n        1\n    }\n}\nmod a;",
        f"src/a.rs: {IS_ONE}|",
        f"{BECOMES}|",
    ),
    # `include!` is in the folder of the file with the outermost call.
    (
        "#[macro_use] mod d; " + ONE + 'inc!("a.rs");',
        "#[macro_use] mod d; " + ONE + 'include!("a.rs");',
        f"src/d/mod.rs: macro_rules! inc {{ ($f:literal) => {{ include!($f); }} }}|src/a.rs: {IS_ONE}|",
        f"macro_rules! inc {{ ($f:literal) => {{ include!($f); }} }}|{BECOMES}|",
    ),
)

# Crates whose files are not all read: as above. The expansion of a file that isn't read is `-`. Then comes the number of notes.
LEFT = (
    # Disabled code.
    (ON + ONE + "on! { #[cfg(any())] mod a; }", ON + ONE + "#[cfg(any())] mod a;", f"src/a.rs: {IS_ONE}|", "-|", 0),
    (ON + ONE + "#[cfg(any())] on! { mod a; }", ON + ONE + "#[cfg(any())] on! { mod a; }", f"src/a.rs: {IS_ONE}|", "-|", 0),
    # A file that isn't there, two files, and a file around itself.
    (ON + ONE + "on! { mod a; } " + IS_ONE, ON + ONE + "mod a; " + BECOMES, "", "", 1),
    (ON + "on! { mod a; }", ON + "mod a;", f"src/a.rs: {ONE}|src/a/mod.rs: {ONE}|", f"{ONE}|{ONE}|", 1),
    (
        ON + ONE + "on! { mod a; }",
        ON + ONE + "mod a;",
        f'src/a.rs: {IS_ONE} on! {{ #[path = "a.rs"] mod b; }}|',
        f'{BECOMES} #[path = "a.rs"] mod b;|',
        1,
    ),
    # The expansion defines a macro after the module, or beside it in the braces of a module.
    (
        ONE + "macro_rules! on { () => { mod a; macro_rules! m { () => { 2 } } } } on!();",
        ONE + "macro_rules! on { () => { mod a; macro_rules! m { () => { 2 } } } } "
        "mod a;\nmacro_rules! m {\n    () => {\n        2\n    }\n}",
        f"src/a.rs: {IS_ONE}|",
        "-|",
        1,
    ),
    (
        "macro_rules! on { () => { mod d { macro_rules! m { () => { 1 } } mod a; } } } on!();",
        "macro_rules! on { () => { mod d { macro_rules! m { () => { 1 } } mod a; } } } "
        "mod d {\n    macro_rules! m {\n        () => {\n            1\n        }\n    }\n    mod a;\n}",
        f"src/d/a.rs: {IS_ONE}|",
        "-|",
        1,
    ),
    # Modules and files in functions and values.
    (ONE + 'fn f() { #[path = "a.rs"] mod a; }', ONE + 'fn f() { #[path = "a.rs"] mod a; }', f"src/a.rs: {IS_ONE}|", "-|", 1),
    (
        ON + ONE + 'fn f() { on! { #[path = "a.rs"] mod a; } }',
        ON + ONE + 'fn f() { #[path = "a.rs"] mod a; }',
        f"src/a.rs: {IS_ONE}|",
        "-|",
        1,
    ),
    (ONE + 'fn f() { include!("a.rs"); }', ONE + 'fn f() { include!("a.rs"); }', "src/a.rs: m!()|", "-|", 1),
    (ONE + 'const X: i32 = include!("a.rs");', ONE + 'const X: i32 = include!("a.rs");', "src/a.rs: m!()|", "-|", 1),
)

# Arguments without which the file of the first row is read.
OPTIONS = (("--no-modules",), ("--once", "--no-modules"))


def check(program, table, row, words, count):
    """Each file that is read has the expansion of the row, the others are not written, and there are this many notes."""
    root, want, others, wants = row[:4]
    files = {"src/lib.rs": root, **files_of(others.removesuffix("|"))} if others else {"src/lib.rs": root}
    ran, found = counted(program, ["--write", "out", *words, "src/lib.rs"], {"out/": "", **files})
    places = [f"out/{path.removeprefix('src/')}" for path in files]
    got = [ran.files.get(place, "-") for place in places]
    program.check(table, row, (ran.out, got, found), ("", [want, *wants.split("|")[:-1]], count))


def test(program):
    for row in COMPILED:
        check(program, "called_modules.COMPILED", row, [], 0)
    for row in LEFT:
        check(program, "called_modules.LEFT", row, [], row[4])
    for words in OPTIONS:
        root, want, others, _wants = COMPILED[0]
        check(program, "called_modules.OPTIONS", (root, want, others, "-|"), words, 0)
