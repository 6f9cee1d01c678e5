"""The definition that a call resolves to, and the notes if that isn't certain. In rustc 1.95 the calls resolve to the same definitions."""
import re

from expandm import files_of

HERE = "`{}!` is defined here"
UNSURE = "cannot tell which macro `{}` is"
THERE = "in this macro invocation"
UNFOUND = "cannot find macro `{}` in this scope"

ONE = "macro_rules! m { () => { 1 } }"
TWO = "macro_rules! m { () => { 2 } }"
IN_A = "mod a { macro_rules! m { () => { 1 } } pub(crate) use m; }"
IN_B = "mod b { macro_rules! m { () => { 2 } } pub(crate) use m; }"

USES = "macro_rules! n { ($n:ident, $e:expr) => { macro_rules! $n { () => { $e } } pub(crate) use $n; } }"
MODULE = "macro_rules! n { ($n:ident, $e:expr) => { #[macro_use] mod made { macro_rules! $n { () => { $e } } } } }"
ITEM = "macro_rules! n { ($n:ident, $e:expr) => { pub macro $n() { $e } } }"

# Arguments, the last of which is the first file; files; the expansion of the first file; and the notes. A file is `PATH: TEXT`, with a `|`
# between files. In an expansion, `..` is the file's text up to the last line. A note has its location, its message, and a name for the
# message's `{}`.
ROWS = (
    # A path of two names: the module that it names decides.
    ("a.rs", f"a.rs: {IN_A}\n{IN_B}\nx = [a::m!(), b::m!()];", "..x = [1, 2];", ()),
    ("a.rs", f"a.rs: {IN_A}\n#[macro_export] {TWO}\nx = [a::m!(), crate::m!()];", "..x = [1, 2];", ()),
    ("a.rs", f"a.rs: {IN_A}\nmod b {{ #[macro_export] {TWO} }}\nx = [a::m!(), crate::m!()];", "..x = [1, 2];", ()),
    (
        "src/lib.rs",
        f"src/lib.rs: mod a; mod b;\nx = [a::m!(), b::m!()];|src/a.rs: {ONE} pub(crate) use m;|src/b.rs: {TWO} pub(crate) use m;",
        "..x = [1, 2];", (),
    ),
    # `$crate` in a template is the root of the crate that defines the macro.
    (
        "a.rs", f"a.rs: #[macro_export] {TWO}\n{IN_A}\nmacro_rules! n {{ () => {{ $crate::m!() }} }}\nx = n!();",
        "..x = 2;", (),
    ),
    (
        "a.rs",
        "a.rs: #[macro_export] macro_rules! area { ($s:expr) => { $crate::area!($s, $s) }; ($w:expr, $h:expr) => { $w * $h }; }\n"
        "x = area!(2);",
        "..x = 2 * 2;", (),
    ),
    (
        "a.rs", f"a.rs: {IN_A}\nmacro_rules! n {{ () => {{ $crate::a::m!() }} }}\nx = n!();",
        "..x = 1;", (),
    ),
    # A path of more names, or by `self` or `super`: it must be the only definition of its name.
    (
        "a.rs", f"a.rs: {IN_A}\nx = [crate::a::m!(), self::a::m!(), a :: m!()]; mod b {{ x = super::a::m!(); }}",
        "..x = [1, 1, 1]; mod b { x = 1; }", (),
    ),
    (
        "a.rs", f"a.rs: {IN_A}\n{IN_B}\nx = crate::a::m!();", "..x = crate::a::m!();",
        (("3:15", UNSURE, "m"), ("2:22", HERE, "m"), ("1:22", HERE, "m")),
    ),
    (
        "a.rs", f"a.rs: {IN_A}\n{IN_B}\nx = self::b::m!();", "..x = self::b::m!();",
        (("3:14", UNSURE, "m"), ("2:22", HERE, "m"), ("1:22", HERE, "m")),
    ),
    # Two modules of one name.
    (
        "a.rs", f"a.rs: {IN_A}\nmod c {{ {IN_A} }}\nx = a::m!();", "..x = a::m!();",
        (("3:8", UNSURE, "m"), ("2:30", HERE, "m"), ("1:22", HERE, "m")),
    ),
    # A path into another crate resolves to no definition of these files.
    ("a.rs", f"a.rs: #[macro_export] {ONE}\nx = log::m!();", "..x = log::m!();", ()),
    ("a.rs", "a.rs: #[macro_export] macro_rules! vec { () => { 1 } }\nx = std::vec![];", "..x = std::vec![];", ()),
    ("a.rs", f"a.rs: {IN_A}\nx = ::a::m!();", "..x = ::a::m!();", (("2:10", UNSURE, "m"), ("1:22", HERE, "m"))),
    # A `use` that may name another crate's macro.
    (
        "a.rs", f"a.rs: {IN_A}\nuse log::m;\nx = m!();", "..x = m!();",
        (("3:5", UNSURE, "m"), ("1:22", HERE, "m")),
    ),
    (
        "a.rs", f"a.rs: {IN_A}\nuse log::{{n as m, o}};\nx = m!();", "..x = m!();",
        (("3:5", UNSURE, "m"), ("1:22", HERE, "m")),
    ),
    ("a.rs", f"a.rs: {IN_A}\nuse a::m;\nx = m!();", "..x = 1;", ()),
    ("a.rs", f"a.rs: {IN_A}\nuse crate::{{a::{{m}}, c}};\nx = m!();", "..x = 1;", ()),
    (
        "a.rs", f"a.rs: {IN_A}\n{IN_B}\nuse a::m; x = m!();", "..use a::m; x = m!();",
        (("3:15", UNSURE, "m"), ("2:22", HERE, "m"), ("1:22", HERE, "m")),
    ),
    # A `use` with another name imports no macro of the old name.
    (
        "a.rs", f"a.rs: mod a {{ {ONE} pub(crate) use m as k; }}\nx = m!();", "..x = m!();",
        (("2:5", UNFOUND, "m"), ("1:22", HERE, "m")),
    ),
    (
        "a.rs", f"a.rs: mod a {{ {ONE} pub(crate) use m as k; }} {IN_B}\nx = [crate::b::m!(), crate::a::k!()];",
        "..x = [2, crate::a::k!()];", (),
    ),
    # A definition is imported by the `use` before the next one of its name.
    ("a.rs", f"a.rs: mod a {{ {ONE} {TWO} pub(crate) use m; }}\nx = a::m!();", "..x = 2;", ()),
    ("a.rs", f"a.rs: mod a {{ {ONE} pub(crate) use m; {TWO} }}\nx = a::m!();", "..x = 1;", ()),
    # Names of the standard library.
    (
        "a.rs", "a.rs: fn f() { vec![1] }\nmacro_rules! vec { ($x:tt) => { 2 } } x = vec![1];",
        "..macro_rules! vec { ($x:tt) => { 2 } } x = 2;", (),
    ),
    (
        "a.rs", "a.rs: mod a { macro_rules! vec { () => { 2 } } pub(crate) use vec; }\nx = [vec![], a::vec![]];",
        "..x = [vec![], 2];", (),
    ),
    (
        "a.rs", "a.rs: mod a { macro_rules! println { ($e:expr) => { $e } } pub(crate) use println as q; }\nx = println!(1);",
        "..x = println!(1);", (),
    ),
    (
        "a.rs", "a.rs: mod a { macro_rules! vec { () => { 2 } } pub(crate) use vec; }\nuse a::vec; x = vec![];",
        "..use a::vec; x = vec![];", (("2:17", UNSURE, "vec"), ("1:22", HERE, "vec")),
    ),
    # A `#[macro_use]` module is in the order of the text. The code after it sees its macros, and they shadow earlier ones.
    ("a.rs", f"a.rs: {ONE}\n#[macro_use] mod a {{ {TWO} }}\nx = m!();", "..x = 2;", ()),
    ("a.rs", f"a.rs: #[macro_use] mod a {{ {ONE} }}\n{TWO} x = m!();", f"..{TWO} x = 2;", ()),
    (
        "a.rs", f"a.rs: #[macro_use] mod a {{ {ONE} }}\nx = m!(); #[macro_use] mod b {{ {TWO} }} y = m!();",
        f"..x = 1; #[macro_use] mod b {{ {TWO} }} y = 2;", (),
    ),
    ("a.rs", f"a.rs: {ONE}\n#[macro_use] #[allow(dead_code)] pub(crate) mod a {{ {TWO} }} x = m!();",
     f"..#[macro_use] #[allow(dead_code)] pub(crate) mod a {{ {TWO} }} x = 2;", ()),
    ("a.rs", f"a.rs: {ONE}\n#[macro_use] mod a {{ #[macro_use] mod b {{ {TWO} }} x = m!(); }} x = m!();",
     f"..#[macro_use] mod a {{ #[macro_use] mod b {{ {TWO} }} x = 2; }} x = 2;", ()),
    ("a.rs", f"a.rs: {ONE}\n#[macro_use] mod a {{ mod b {{ {TWO} }} x = m!(); }} x = m!();",
     f"..#[macro_use] mod a {{ mod b {{ {TWO} }} x = 1; }} x = 1;", ()),
    ("a.rs", f"a.rs: {ONE}\nfn f() {{ #[macro_use] mod a {{ {TWO} }} x = m!(); }} x = m!();",
     f"..fn f() {{ #[macro_use] mod a {{ {TWO} }} x = 2; }} x = 1;", ()),
    ("a.rs", f"a.rs: {ONE}\n#[macro_use] mod a {{}} mod b {{ {TWO} }} x = m!();", f"..#[macro_use] mod a {{}} mod b {{ {TWO} }} x = 1;", ()),
    ("a.rs", f"a.rs: {ONE}\n#[macro_use] extern crate core; mod b {{ {TWO} }} x = m!();",
     f"..#[macro_use] extern crate core; mod b {{ {TWO} }} x = 1;", ()),
    (
        "a.rs", f"a.rs: x = m!();\n#[macro_use] mod a {{ {ONE} }}", f"x = m!();\n#[macro_use] mod a {{ {ONE} }}",
        (("1:5", UNFOUND, "m"), ("2:35", HERE, "m")),
    ),
    (
        "src/lib.rs", f"src/lib.rs: {ONE}\n#[macro_use] mod a;\nx = m!();|src/a.rs: x = m!(); {TWO}", "..x = 2;", (),
    ),
    (
        "a.rs", f"a.rs: {TWO} macro_rules! n {{ ($e:expr) => {{ macro_rules! m {{ () => {{ $e }} }} }} }}\n#[macro_use] mod a {{ n!(1); }} x = m!();",
        "..#[macro_use] mod a { macro_rules! m {\n    () => {\n        1\n    }\n} } x = 1;", (),
    ),
    # A module in a function.
    (
        "a.rs", f"a.rs: mod b {{ #[macro_export] {ONE} }}\nfn f() {{ {{ mod c {{ {TWO} pub(crate) use m; }} x = c::m!(); }} }}",
        f"..fn f() {{ {{ mod c {{ {TWO} pub(crate) use m; }} x = 2; }} }}", (),
    ),
    (
        "a.rs", f"a.rs: mod b {{ #[macro_export] {ONE} }}\nfn f() {{ mod b {{ {TWO} pub(crate) use m; }} x = b::m!(); }}",
        f"..fn f() {{ mod b {{ {TWO} pub(crate) use m; }} x = b::m!(); }}",
        (("2:76", UNSURE, "m"), ("2:31", HERE, "m"), ("1:38", HERE, "m")),
    ),
    # A `macro` item of a module isn't visible in the modules inside it; one of a block is.
    ("a.rs", f"a.rs: {ONE}\nmod a {{ mod b {{ x = m!(); }} macro m() {{ 2 }} }}", "..mod a { mod b { x = 1; } macro m() { 2 } }", ()),
    ("a.rs", "a.rs: macro stringify() { 1 }\nmod a { x = stringify!(); }", "..mod a { x = stringify!(); }", ()),
    (
        "a.rs", "a.rs: \nmod a { macro m() { 1 } x = m!(); } fn f() { x = m!(); macro m() { 2 } }",
        "..mod a { macro m() { 1 } x = 1; } fn f() { x = 2; macro m() { 2 } }", (),
    ),
    # A path of two names finds a macro that only another module has, if a `use` may bring it.
    ("a.rs", f"a.rs: {IN_A}\nmod b {{ pub(crate) use super::a::m; }} x = b::m!();", "..mod b { pub(crate) use super::a::m; } x = 1;", ()),
    ("a.rs", f"a.rs: {IN_A}\nmod b {{ pub(crate) use super::a::*; }} x = b::m!();", "..mod b { pub(crate) use super::a::*; } x = 1;", ()),
    (
        "a.rs", f"a.rs: {IN_A}\nmod b {{ fn f() {{}} }} x = b::m!();", "..mod b { fn f() {} } x = b::m!();",
        (("2:28", UNSURE, "m"), ("1:22", HERE, "m")),
    ),
    # A call may define a macro that only a path finds, or that shadows one in scope.
    (
        "a.rs", f"a.rs: {USES} mod a {{ {ONE} pub(crate) use m; fn f() {{ x = super::m!(); }} }}\nn!(m, 2); x = a::m!();",
        "..macro_rules! m {\n    () => {\n        2\n    }\n}\npub(crate) use m; x = 1;",
        (("1:176", UNSURE, "m"), ("1:120", HERE, "m")),
    ),
    (
        "a.rs", f"a.rs: {ONE} {ITEM}\nn!(m, 2); fn f() {{ x = m!(); }}",
        "..pub macro m() {\n    2\n} fn f() { x = m!(); }", (("2:24", UNSURE, "m"), ("2:4", HERE, "m"), ("1:14", HERE, "m")),
    ),
    (
        "a.rs", f"a.rs: {MODULE} {IN_A}\nn!(m, 2); x = m!();",
        "..#[macro_use] mod made {\n    macro_rules! m {\n        () => {\n            2\n        }\n    }\n} x = m!();",
        (("2:15", UNSURE, "m"), ("1:127", HERE, "m")),
    ),
    # A name in the template of a `macro` item means what it means at the item.
    (
        "a.rs", f"a.rs: mod a {{ macro m() {{ 1 }} pub macro n() {{ m!() }} }}\n{TWO} x = a::n!();",
        f"..{TWO} x = m!();",
        (("1:41", UNSURE, "m"), ("2:14", HERE, "m"), ("1:15", HERE, "m"), ("2:36", THERE, "m")),
    ),
    # Out of textual scope.
    ("a.rs", f"a.rs: x = m!();\n{ONE}", f"x = m!();\n{ONE}", (("1:5", UNFOUND, "m"), ("2:14", HERE, "m"))),
    ("a.rs", f"a.rs: mod a {{ {ONE} }}\nx = m!();", "..x = m!();", (("2:5", UNFOUND, "m"), ("1:22", HERE, "m"))),
    ("a.rs", f"a.rs: fn f() {{ {ONE} }}\nx = m!();", "..x = m!();", (("2:5", UNFOUND, "m"), ("1:23", HERE, "m"))),
    (
        "a.rs", f"a.rs: #[macro_use] extern crate core;\nmod a {{ {ONE} }}\nx = m!();", "..x = m!();",
        (("3:5", UNFOUND, "m"), ("2:22", HERE, "m")),
    ),
    # A definition in a block has no path.
    (
        "a.rs", f"a.rs: fn f() {{ macro m() {{ 1 }} }}\n{IN_B}\nx = crate::b::m!();", "..x = 2;", (),
    ),
    ("a.rs", f"a.rs: {IN_B}\nfn f() {{ {ONE} use m; x = m!() + crate::b::m!(); }}", f"..fn f() {{ {ONE} use m; x = 1 + 2; }}", ()),
    # Other crates: a name or a path that may mean something else.
    ("--extern b=b.rs a.rs", "a.rs: x = [vec![], b::vec![]];|b.rs: #[macro_export] macro_rules! vec { () => { 1 } }", "x = [vec![], 1];", ()),
    ("--extern std=b.rs a.rs", "a.rs: x = [vec![], std::vec![]];|b.rs: #[macro_export] macro_rules! vec { () => { 1 } }", "x = [1, 1];", ()),
    (
        "--extern b=b.rs a.rs", "a.rs: use b::vec; x = vec![];|b.rs: #[macro_export] macro_rules! vec { () => { 1 } }", "use b::vec; x = vec![];",
        (("1:17", UNSURE, "vec"), ("1:30", HERE, "vec")),
    ),
    (
        "--extern b=b.rs a.rs", f"a.rs: use b::n as m; x = m!();|b.rs: #[macro_export] {ONE}", "use b::n as m; x = m!();",
        (("1:20", UNSURE, "m"), ("1:30", HERE, "m")),
    ),
    (
        "--extern b=b.rs a.rs", f"a.rs: use c as b; x = [b::m!(), ::b::m!()];|b.rs: #[macro_export] {ONE}", "use c as b; x = [b::m!(), 1];",
        (("1:21", UNSURE, "m"), ("1:30", HERE, "m")),
    ),
    (
        "--extern b=b.rs a.rs", f"a.rs: extern crate c as b; x = b::m!();|b.rs: #[macro_export] {ONE}", "extern crate c as b; x = b::m!();",
        (("1:29", UNSURE, "m"), ("1:30", HERE, "m")),
    ),
    (
        "--extern m=b.rs a.rs", f"a.rs: use m::m; x = [m!(), m::m!(), m::n!()];|b.rs: #[macro_export] {ONE} #[macro_export] macro_rules! n {{ () => {{ 2 }} }}",
        "use m::m; x = [1, 1, 2];", (),
    ),
    (
        "--extern b=b.rs a.rs", f"a.rs: use c::b; x = b::m!();|b.rs: #[macro_export] {ONE}", "use c::b; x = b::m!();",
        (("1:18", UNSURE, "m"), ("1:30", HERE, "m")),
    ),
    (
        "--extern b=b.rs a.rs", f"a.rs: mod b {{ {TWO} pub(crate) use m; }} x = b::m!();|b.rs: #[macro_export] {ONE}",
        f"mod b {{ {TWO} pub(crate) use m; }} x = b::m!();", (("1:67", UNSURE, "m"), ("1:30", HERE, "m")),
    ),
    (
        "--extern b=b.rs --extern c=c.rs a.rs",
        f"a.rs: x = [b::n::m!(), b::m!()];|b.rs: #[macro_export] {ONE} pub mod n {{ pub use c::m; }}|c.rs: #[macro_export] {TWO}",
        "x = [b::n::m!(), 1];", (("1:12", UNSURE, "m"), ("1:30", HERE, "m")),
    ),
    (
        "--extern b=b.rs a.rs",
        f"a.rs: {IN_A}\nmod n {{ pub use b::*; }} x = n::m!();|b.rs: #[macro_export] {TWO}", "..mod n { pub use b::*; } x = n::m!();",
        (("2:32", UNSURE, "m"), ("1:22", HERE, "m"), ("1:30", HERE, "m")),
    ),
    # A file that is given before another one offers its definitions in no group.
    ("b.rs a.rs", f"a.rs: x = m!();|b.rs: {ONE}", "x = 1;", ()),
    ("b.rs a.rs", f"a.rs: x = vec![];|b.rs: macro_rules! vec {{ () => {{ 1 }} }}", "x = vec![];", ()),
    (
        "b.rs a.rs", f"a.rs: use log::m; x = m!();|b.rs: {ONE}", "use log::m; x = m!();",
        (("1:17", UNFOUND, "m"), ("1:14", HERE, "m")),
    ),
)


# The example of docs/EXPANDM.md: a file, the expansion of its last line, and the messages.
DOCUMENTED = """\
mod a { macro_rules! m { () => { 1 } } pub(crate) use m; }
mod b { macro_rules! m { () => { 2 } } pub(crate) use m; }
const A: [u8; 3] = [a::m!(), b::m!(), crate::a::m!()];
"""
DOCUMENTED_LINE = "const A: [u8; 3] = [1, 2, crate::a::m!()];\n"
DOCUMENTED_NOTES = """\
a.rs:3:49: note: cannot tell which macro `m` is
a.rs:2:22: note: `m!` is defined here
a.rs:1:22: note: `m!` is defined here
"""


def test_documented(program):
    """The example of docs/EXPANDM.md."""
    ran = program.run(["a.rs"], {"a.rs": DOCUMENTED})
    notes = "".join(f"{line}\n" for line in ran.err.split("\n") if re.match(r"a\.rs:\d", line))
    want = DOCUMENTED[: DOCUMENTED.index("const A")] + DOCUMENTED_LINE
    program.check("resolved.DOCUMENTED", "a.rs", (ran.status, ran.out, notes), (0, want, DOCUMENTED_NOTES))


def becomes(text, want):
    """The expansion of a file, as the row has it: `..` is the text up to the last line."""
    if want.startswith(".."):
        return text[: text.rindex("\n") + 1] + want[2:]
    return want


def test(program):
    test_documented(program)
    for row in ROWS:
        words, texts, want, notes = row
        files = files_of(texts)
        first = words.split()[-1]
        ran = program.run(words.split(), files)
        said = re.findall(r"^\S+?:(\d+:\d+): (?:error|note): (.*)$", ran.err, re.M)
        wanted = [(place, message.format(name)) for place, message, name in notes]
        program.check("resolved.ROWS", row, (ran.status, ran.out, said), (0, becomes(files[first], want), wanted))
