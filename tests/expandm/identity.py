"""How `expandm` knows a file: modules that name one file by several paths, files that contain themselves, and the folders that `--root`
allows."""
import os
import tempfile

from programs import write

M = "macro_rules! m { () => { 1 } } "

# Files, with a `|` between them; arguments; the output; and the notes of the run that belong to no line, each without `note: `. A file is
# `PATH: TEXT`, or `PATH -> WHERE` for a symbolic link.
ROWS = (
    # A file that contains itself, by another path each time.
    ('d/x.rs: #[path = "../d/x.rs"] mod a; x = 1;', "d/x.rs", '#[path = "../d/x.rs"] mod a; x = 1;',
     ["circular: `d/../d/x.rs` is `d/x.rs`, which it is reached from"]),
    ('d/x.rs: #[path = "../d/x.rs"] mod a; #[path = "./x.rs"] mod b;', "d/x.rs", '#[path = "../d/x.rs"] mod a; #[path = "./x.rs"] mod b;',
     ["circular: `d/../d/x.rs` is `d/x.rs`, which it is reached from", "circular: `d/./x.rs` is `d/x.rs`, which it is reached from"]),
    ('d/x.rs: include!("../d/x.rs");', "d/x.rs", 'include!("../d/x.rs");',
     ["circular: `d/../d/x.rs` is `d/x.rs`, which it is reached from"]),
    # Two files, each of which contains the other.
    ('x.rs: mod y;|y.rs: #[path = "./x.rs"] mod z;', "x.rs", "mod y;", ["circular: `./x.rs` is `x.rs`, which it is reached from"]),
    # A link to a file that contains it, and to the folder that contains it.
    ("x.rs: mod y;|y.rs -> x.rs", "x.rs", "mod y;", ["circular: `y.rs` is `x.rs`, which it is reached from"]),
    ("x.rs: mod a;|a/mod.rs: mod b;|a/b -> ../a", "x.rs", "mod a;", ["circular: `a/b/mod.rs` is `a/mod.rs`, which it is reached from"]),
    # A file of two modules doesn't contain itself, whatever the paths: each module has its definitions.
    (f'x.rs: #[macro_use] mod a; #[path = "./a.rs"] #[macro_use] mod b; x = m!();|a.rs: {M}', "x.rs",
     '#[macro_use] mod a; #[path = "./a.rs"] #[macro_use] mod b; x = 1;', []),
    (f"x.rs: #[macro_use] mod b; x = m!();|a.rs: {M}|b.rs -> a.rs", "x.rs", "#[macro_use] mod b; x = 1;", []),
    (f'x.rs: mod a; mod b; x = m!();|a.rs: #[path = "./c.rs"] mod c;|b.rs: #[path = "././c.rs"] mod c;|c.rs: #[macro_export] {M}', "x.rs",
     "mod a; mod b; x = m!();", []),
    # Folders that are allowed.
    (f"s/x.rs: #[macro_use] mod a; x = m!();|s/a.rs: {M}", "--root s s/x.rs", "#[macro_use] mod a; x = 1;", []),
    (f"s/x.rs: #[macro_use] mod a; x = m!();|s/a.rs: {M}", "--root t --root s/ s/x.rs", "#[macro_use] mod a; x = 1;", []),
    (f'r/s/x.rs: #[path = "../../a.rs"] #[macro_use] mod a; x = m!();|a.rs: {M}', "--root r r/s/x.rs",
     '#[path = "../../a.rs"] #[macro_use] mod a; x = m!();', ["`r/s/../../a.rs` isn't read: it isn't below a folder of `--root`"]),
    (f'r/s/x.rs: #[path = "../../ra/a.rs"] #[macro_use] mod a; x = m!();|ra/a.rs: {M}', "--root r r/s/x.rs",
     '#[path = "../../ra/a.rs"] #[macro_use] mod a; x = m!();', ["`r/s/../../ra/a.rs` isn't read: it isn't below a folder of `--root`"]),
    (f"s/x.rs: #[macro_use] mod a; x = m!();|a.rs: {M}|s/a.rs -> ../a.rs", "--root s s/x.rs", "#[macro_use] mod a; x = m!();",
     ["`s/a.rs` isn't read: it isn't below a folder of `--root`"]),
    (f's/x.rs: include!("../a.rs"); x = m!();|a.rs: {M}', "--root s s/x.rs", 'include!("../a.rs"); x = m!();',
     ["`s/../a.rs` isn't read: it isn't below a folder of `--root`"]),
    # The files that are named are read from anywhere.
    (f"s/x.rs: x = d::m!();|d/lib.rs: #[macro_export] {M}", "--root s --extern d=d/lib.rs s/x.rs", "x = 1;", []),
)

# The error if a folder doesn't exist.
MISSING = "error: couldn't read `no`: No such file or directory (os error 2)\n"

# The length of a chain of files. Each file names the next one and, by another path, the first one. One note says so.
LENGTH = 300


def make(folder, one):
    if " -> " in one:
        path, where = one.split(" -> ")
        os.makedirs(os.path.dirname(os.path.join(folder, path)), exist_ok=True)
        os.symlink(where, os.path.join(folder, path))
    else:
        write(folder, *one.split(": ", 1))


def check_row(program, row):
    files, words, want, notes = row
    with tempfile.TemporaryDirectory() as folder:
        os.mkdir(f"{folder}/t")
        for one in files.split("|"):
            make(folder, one)
        ran = program.run_in(folder, words.split())
    found = [line.removeprefix("note: ") for line in ran.err.splitlines() if line.startswith("note: ")]
    program.check("identity.ROWS", row, (ran.status, ran.out, found), (0, want, notes))


def check_chain(program):
    files = {f"f{number}.rs": f'mod f{number + 1}; #[path = "./f0.rs"] mod again;' for number in range(LENGTH)}
    ran = program.run(["f0.rs"], {**{name: text.replace("mod f", "#[path = \"f").replace("; #", ".rs\"] mod next; #", 1)
                                     for name, text in files.items()}, f"f{LENGTH}.rs": "x = 1;"})
    found = [line for line in ran.err.splitlines() if line.startswith("note: circular: ")]
    want = ["note: circular: `./f0.rs` is `f0.rs`, which it is reached from"]
    program.check("identity.chain", LENGTH, (ran.status, found), (0, want))


def test(program):
    for row in ROWS:
        check_row(program, row)
    ran = program.run(["--root", "no", "a.rs"], {"a.rs": "x = 1;"})
    program.check("identity.MISSING", "--root no", (ran.status, ran.out, ran.err), (2, "", MISSING))
    check_chain(program)
