"""The expansions of crates whose modules are in files, and where each file is written."""
import os

from expandm import counted, files_of

# Arguments, the last of which is a crate's root; the files, the root first; their expansions; and the number of notes. A file is
# `PATH: TEXT`. Each file and each expansion has a `|` after it.
ROWS = (
    (
        "src/lib.rs",
        "src/lib.rs: macro_rules! m { () => { 1 } } mod a; x = m!();|src/a.rs: y = m!();",
        "macro_rules! m { () => { 1 } } mod a; x = 1;|y = 1;|",
        0,
    ),
    (
        "src/lib.rs",
        "src/lib.rs: #[macro_use] mod a; x = m!();|src/a.rs: macro_rules! m { () => { 1 } } y = m!();",
        "#[macro_use] mod a; x = 1;|macro_rules! m { () => { 1 } } y = 1;|",
        0,
    ),
    (
        "src/lib.rs",
        "src/lib.rs: macro_rules! m { () => { 1 } } mod a; x = m!();|"
        "src/a.rs: macro_rules! m { () => { 2 } } y = m!();",
        "macro_rules! m { () => { 1 } } mod a; x = 1;|macro_rules! m { () => { 2 } } y = 2;|",
        0,
    ),
    (
        "src/lib.rs",
        "src/lib.rs: macro_rules! m { () => { 1 } } mod a; macro_rules! m { () => { 2 } } mod b;|"
        "src/a.rs: y = m!();|"
        "src/b.rs: z = m!();",
        "macro_rules! m { () => { 1 } } mod a; macro_rules! m { () => { 2 } } mod b;|y = 1;|z = 2;|",
        0,
    ),
    (
        "src/lib.rs",
        "src/lib.rs: mod a; mod b;|"
        "src/a.rs: mod c; #[macro_export] macro_rules! m { () => { 3 } }|"
        "src/b.rs: x = crate::m!();|"
        "src/a/c.rs: y = crate::m!();",
        "mod a; mod b;|mod c; #[macro_export] macro_rules! m { () => { 3 } }|x = 3;|y = 3;|",
        0,
    ),
    (
        "src/lib.rs",
        "src/lib.rs: mod a; mod b;|"
        "src/a.rs: macro_rules! m { () => { 3 } } pub(crate) use m;|"
        "src/b.rs: use crate::a::m; x = m!(); y = crate::a::m!();",
        "mod a; mod b;|macro_rules! m { () => { 3 } } pub(crate) use m;|use crate::a::m; x = 3; y = 3;|",
        0,
    ),
    (
        "src/lib.rs",
        "src/lib.rs: mod a; x = m!();|src/a.rs: macro_rules! m { () => { 1 } } y = m!();",
        "mod a; x = m!();|macro_rules! m { () => { 1 } } y = 1;|",
        2,
    ),
    (
        "src/lib.rs",
        "src/lib.rs: #[macro_use] mod a; x = m!(); y = n!();|"
        "src/a.rs: #[macro_use] mod b; mod c;|"
        "src/a/b.rs: macro_rules! m { () => { 1 } }|"
        "src/a/c.rs: macro_rules! n { () => { m!() } } z = n!();",
        "#[macro_use] mod a; x = 1; y = n!();|#[macro_use] mod b; mod c;|macro_rules! m { () => { 1 } }|"
        "macro_rules! n { () => { m!() } } z = 1;|",
        2,
    ),
    (
        "src/lib.rs",
        "src/lib.rs: mod a; x = a::m!(); y = self::a::m!(); z = log::n!();|"
        "src/a.rs: macro_rules! m { () => { 1 } } macro_rules! n { () => { 2 } } pub(crate) use {m as k, m};",
        "mod a; x = 1; y = 1; z = log::n!();|"
        "macro_rules! m { () => { 1 } } macro_rules! n { () => { 2 } } pub(crate) use {m as k, m};|",
        0,
    ),
    (
        "src/lib.rs",
        "src/lib.rs: macro_rules! m { () => { 1 } } use m::k; fn f() { macro_rules! n { () => { 2 } } } use n; "
        "x = log::m!() + log::n!();",
        "macro_rules! m { () => { 1 } } use m::k; fn f() { macro_rules! n { () => { 2 } } } use n; "
        "x = log::m!() + log::n!();|",
        0,
    ),
    (
        "src/lib.rs",
        "src/lib.rs: mod a; x = a::m!();|"
        "src/a.rs: macro_rules! m { () => { 1 } } macro_rules! m { () => { 2 } } pub(crate) use m;",
        "mod a; x = 2;|macro_rules! m { () => { 1 } } macro_rules! m { () => { 2 } } pub(crate) use m;|",
        0,
    ),
    (
        "--no-modules src/lib.rs",
        "src/lib.rs: macro_rules! m { () => { 1 } } mod a; x = m!();|"
        "src/a.rs: macro_rules! n { () => { 2 } } y = m!();",
        "macro_rules! m { () => { 1 } } mod a; x = 1;|macro_rules! n { () => { 2 } } y = m!();|",
        0,
    ),
    (
        "-",
        "-: macro_rules! m { () => { 1 } } mod a; x = m!();|a.rs: y = m!();",
        "macro_rules! m { () => { 1 } } mod a; x = 1;|y = m!();|",
        0,
    ),
    (
        "src/lib.rs",
        "src/lib.rs: macro_rules! m { () => { 1 } } #[cfg(no)] mod a; mod b;|src/a.rs: y = m!();|src/b.rs: z = m!();",
        "macro_rules! m { () => { 1 } } #[cfg(no)] mod a; mod b;|y = m!();|z = 1;|",
        0,
    ),
    (
        "src/lib.rs",
        "src/lib.rs: macro_rules! m { () => { 1 } } mod a; mod b; x = m!();|src/b.rs: z = m!();",
        "macro_rules! m { () => { 1 } } mod a; mod b; x = 1;|z = 1;|",
        1,
    ),
    (
        "src/lib.rs",
        'src/lib.rs: macro_rules! m { () => { 1 } } mod a; x = m!();|src/a.rs: "|src/a/mod.rs: z = m!();',
        'macro_rules! m { () => { 1 } } mod a; x = 1;|"|z = m!();|',
        2,
    ),
    (
        "src/lib.rs",
        "src/lib.rs: macro_rules! m { ($n:ident) => { macro_rules! $n { () => { 4 } } } } m!(n); mod a;|"
        "src/a.rs: x = n!();",
        "macro_rules! m { ($n:ident) => { macro_rules! $n { () => { 4 } } } } macro_rules! n {\n    () => {\n"
        "        4\n    }\n} mod a;|x = 4;|",
        0,
    ),
    (
        "src/a.rs src/lib.rs",
        "src/a.rs: y = m!();|src/lib.rs: macro_rules! m { () => { 1 } } mod a;",
        "y = 1;|macro_rules! m { () => { 1 } } mod a;|",
        0,
    ),
    (
        "--call 1 src/lib.rs",
        "src/lib.rs: macro_rules! m { () => { 1 } } mod a; x = m!();|src/a.rs: y = m!() + m!();",
        "1\n|1\n1\n|",
        0,
    ),
)

# A folder, the path of a file, and the path from the folder on; `none` if the file isn't below it.
TARGETS = (
    ("src", "src/a.rs", "a.rs"),
    ("src", "src/a/b/mod.rs", "a/b/mod.rs"),
    ("", "a/b.rs", "a/b.rs"),
    ("/", "/a.rs", "a.rs"),
    ("/x", "/x/a.rs", "a.rs"),
    ("src", "src/a/../b.rs", "b.rs"),
    ("src", "src/./b.rs", "b.rs"),
    ("src", "src/../b.rs", "none"),
    ("src", "src/a/../../src/b.rs", "none"),
    ("src", "srcs/b.rs", "none"),
    ("src", "/b.rs", "none"),
    ("", "/b.rs", "none"),
)

# The folder of the run, in which the absolute paths of rows are: no test writes into `/` itself.
HERE = "/proc/self/cwd"


def is_read(words, texts, path):
    """Whether a run reads a file. A module's file isn't read if modules aren't followed, for standard input, and if it is left out."""
    name = os.path.basename(path).removesuffix(".rs")
    is_left_out = any(f"#[cfg(no)] mod {name};" in text for text in texts)
    return path in words or not ("--no-modules" in words or "-" in words or is_left_out)


# The file that lists what was written.
LIST = "out/.expandm"


def written(words, path):
    """The path of a file's expansion. A file that the arguments name is written without its folder. The others keep their path from that
    folder on."""
    return "out/" + (os.path.basename(path) if path in words else path.removeprefix("src/"))


def check_crate(program, row):
    """Each file that is read has the expansion of the row, the others are unchanged, and there are this many notes."""
    words, texts, want, count = row
    words, files = words.split(), files_of(texts)
    places = {path: written(words, path) if is_read(words, files.values(), path) else path for path in files}
    stdin = files.pop("-", "")
    ran, found = counted(program, ["--write", "out", *words], {"out/": "", **files}, stdin)
    made = sorted(path for path in ran.files if path.startswith("out/") and path != LIST)
    got = (ran.out, "".join(f"{ran.files.get(place)}|" for place in places.values()), made, found)
    wanted = sorted(place for place in places.values() if place.startswith("out/"))
    program.check("modules.ROWS", row, got, ("", want, wanted, count))


def here(path):
    """A path in the folder of the run, as an absolute path."""
    return f"{HERE}/{path.lstrip('/')}"


def crate_at(folder, path):
    """A root in the folder, and its `#[path]` for that file: from the folder on, if the path continues from there."""
    start = os.path.join(folder, "")
    if path.startswith(start) and not path.startswith("/"):
        return f"{start}lib.rs", path.removeprefix(start)
    return here(f"{start}lib.rs") if folder else "lib.rs", here(path)


def check_target(program, row):
    """The file of a module is written there, or refused."""
    folder, path, want = row
    root, given = crate_at(folder, path)
    texts = {os.path.join(folder, "lib.rs"): f'#[path = "{given}"] mod m;', path: "x = 1;"}
    files = {path.lstrip("/"): text for path, text in texts.items()}
    ran = program.run(["--write", "out", root], {"out/": "", **files})
    made = sorted(path for path in ran.files if path.startswith("out/") and path != LIST)
    shown = os.path.join(os.path.dirname(root), given)
    refused = (2, f"error: `{shown}`, of a module, isn't below the folder of `{root}`\n", [])
    taken = (0, "", sorted(["out/lib.rs", f"out/{want}"]))
    program.check("modules.TARGETS", row, (ran.status, ran.err, made), refused if want == "none" else taken)


def test(program):
    for row in ROWS:
        check_crate(program, row)
    for row in TARGETS:
        check_target(program, row)
