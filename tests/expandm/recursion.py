"""The limit of nested expansions: what `#![recursion_limit = ".."]` sets for a file, as rustc 1.95 heeds it, and what `--depth` sets."""

# A call with n tokens needs n + 1 expansions, one in the other.
MACRO = "macro_rules! m { () => { 0 }; ($a:tt $($t:tt)*) => { m!($($t)*) } }\n"

# The attributes of the file, the options, and the number of nested expansions that there may be.
ROWS = (
    ("", "", 128),
    ("", "--depth 3", 3),
    ('#![recursion_limit = "3"]', "", 3),
    ('#![recursion_limit = "4"]', "", 4),
    ('#![recursion_limit = "3"]', "--depth 5", 5),
    ('#![recursion_limit = "5"]', "--depth 3", 3),
    ('#![recursion_limit = "+3"]', "", 3),
    ('#![recursion_limit = r"3"]', "", 3),
    ('#![recursion_limit = r#"3"#]', "", 3),
    ('#![r#recursion_limit = "3"]', "", 3),
    ('#![allow(unused)]\n#![recursion_limit = "3"]', "", 3),
    ('#![cfg_attr(any(), recursion_limit = "3")]', "", 128),
    # The last one counts.
    ('#![recursion_limit = "3"]\n#![recursion_limit = "9"]', "", 9),
    ('#![recursion_limit = "9"]\n#![recursion_limit = "3"]', "", 3),
    # Faults of the attribute, which rustc reports; the file sets no limit by them.
    ("#![recursion_limit = 3]", "", 128),
    ('#![recursion_limit = "3u8"]', "", 128),
    ('#![recursion_limit = "3"u8]', "", 128),
    ('#![recursion_limit = ""]', "", 128),
    ('#![recursion_limit = "x"]', "", 128),
    ('#![recursion_limit = "99999999999"]', "", 128),
    ('#![recursion_limit("3")]', "", 128),
    ("#![recursion_limit]", "", 128),
)


def depth(program, attributes, words, count):
    """Whether that many nested expansions end without an error."""
    text = f"{attributes}\n{MACRO}const A: u8 = m!({' '.join('a' for _ in range(count - 1))});\n"
    ran = program.run([*words.split(), "a.rs"], {"a.rs": text})
    return ran.status, "const A: u8 = 0;" in ran.out


def check_row(program, row):
    attributes, words, most = row
    got = depth(program, attributes, words, most), depth(program, attributes, words, most + 1)
    program.check("recursion.ROWS", row, got, ((0, True), (1, False)))


# The root of a crate sets the limit for its files; a file of a module sets none.
MODULES = (
    ('#![recursion_limit = "3"]\nmod b;', "", "a a", True),
    ('#![recursion_limit = "3"]\nmod b;', "", "a a a", False),
    ("mod b;", '#![recursion_limit = "3"]', "a a a", True),
)


def check_modules(program, row):
    root, attributes, argument, is_expanded = row
    files = {"a.rs": root.replace("mod b;", f"{MACRO}mod b;"), "b.rs": f"{attributes}\nconst A: u8 = m!({argument});\n"}
    ran = program.run(["--write", "out", "a.rs"], files)
    text = ran.files.get("out/b.rs", "")
    program.check("recursion.MODULES", row, (ran.status, "const A: u8 = 0;" in text), (int(not is_expanded), is_expanded))


def test(program):
    for row in ROWS:
        check_row(program, row)
    for row in MODULES:
        check_modules(program, row)
