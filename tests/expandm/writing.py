"""What `--write` refuses to write, that a refused or failing run leaves every file as it was, and what `--check` compares."""
import os
import resource
import signal
import tempfile

from programs import text_of, write

# The files of each row: a crate with two modules, and another crate.
FILES = {
    "src/lib.rs": "macro_rules! m { () => { 1 } } mod a; mod b; x = m!();",
    "src/a.rs": "y = m!();",
    "src/b.rs": "mod c;",
    "src/b/c.rs": "z = m!();",
    "dep/lib.rs": "#[macro_export] macro_rules! d { () => { 2 } }",
    "dep/inner/d.rs": "#[macro_export] macro_rules! d { () => { 2 } }",
}

# The expansions of these files below a folder.
BECOME = {
    "lib.rs": "macro_rules! m { () => { 1 } } mod a; mod b; x = 1;",
    "a.rs": "y = 1;",
    "b.rs": "mod c;",
    "b/c.rs": "z = 1;",
}

# The file that lists what was written, and its first line.
LIST = ".expandm"
HEADER = "Files that expandm wrote into this folder, which it may overwrite:\n"

# Other files before the run, with a `|` between them; the arguments before the crate's root; and the error. A file is `PATH: TEXT`, `PATH
# -> WHERE` for a symbolic link, or `PATH = FILE` for another name of a file.
REFUSED = (
    ("", "--write src", "`--write src` would overwrite `src/lib.rs`, which this run reads"),
    ("", "--write ./src/.", "`--write ./src/.` would overwrite `src/lib.rs`, which this run reads"),
    ("", "--write src/b/..", "`--write src/b/..` would overwrite `src/lib.rs`, which this run reads"),
    ("", "--write /proc/self/cwd/src", "`--write /proc/self/cwd/src` would overwrite `src/lib.rs`, which this run reads"),
    ("out -> src", "--write out", "`--write out` would overwrite `src/lib.rs`, which this run reads"),
    ("out/lib.rs = src/lib.rs", "--write out", "`--write out` would overwrite `src/lib.rs`, which this run reads"),
    ("out/b/c.rs = src/b/c.rs", "--write out", "`--write out` would overwrite `src/b/c.rs`, which this run reads"),
    ("out/b.rs = src/a.rs", "--write out", "`--write out` would overwrite `src/a.rs`, which this run reads"),
    ("", "--extern d=dep/lib.rs --write dep", "`--write dep` would overwrite `dep/lib.rs`, which this run reads"),
    ("out/lib.rs -> ../src/lib.rs", "--write out", "`out/lib.rs` is a symbolic link, and `--write` follows none"),
    ("out/lib.rs -> nowhere", "--write out", "`out/lib.rs` is a symbolic link, and `--write` follows none"),
    ("out/a.rs -> ../other|other: old", "--write out", "`out/a.rs` is a symbolic link, and `--write` follows none"),
    ("out/b -> ../other|other/: ", "--write out", "`out/b` is a symbolic link, and `--write` follows none"),
    ("out/b -> ../src/b", "--write out", "`out/b` is a symbolic link, and `--write` follows none"),
    ("out/a.rs/x: old", "--write out", "`out/a.rs` is there, and isn't a file"),
    ("out: old", "--write out", "couldn't write into `out`: Not a directory (os error 20)"),
    ("out/b: old", "--write out", "couldn't write into `out`: Not a directory (os error 20)"),
    ("", "--write|", "the folder after `--write` is empty"),
    ("", "--check --write|", "the folder after `--write` is empty"),
    ("", "--force --write src", "`--write src` would overwrite `src/lib.rs`, which this run reads"),
    ("out/a.rs -> ../other|other: old", "--force --write out", "`out/a.rs` is a symbolic link, and `--write` follows none"),
    ("out/lib.rs: old", "--write out", "`out/lib.rs` is there, and no earlier run wrote it: `--force` overwrites it"),
    ("out/b/c.rs: old", "--write out", "`out/b/c.rs` is there, and no earlier run wrote it: `--force` overwrites it"),
    (f"out/b/c.rs: old|out/{LIST}: {HEADER}lib.rs\na.rs\nc.rs\nb\n", "--write out",
     "`out/b/c.rs` is there, and no earlier run wrote it: `--force` overwrites it"),
    (f"out/{LIST}: lib.rs\n", "--write out", f"`out/{LIST}` is there, and doesn't list files that expandm wrote"),
    (f"out/{LIST}: lib.rs\n", "--force --write out", f"`out/{LIST}` is there, and doesn't list files that expandm wrote"),
    (f"out/{LIST} -> ../other|other: {HEADER}", "--write out", f"`out/{LIST}` is there, and doesn't list files that expandm wrote"),
    ("", "--write .", "`--write .` would write beside `src/lib.rs`, which this run reads"),
    ("", "--force --write src/../", "`--write src/../` would write beside `src/lib.rs`, which this run reads"),
    ("", "--force --extern d=dep/inner/d.rs --write dep", "`--write dep` would write beside `dep/inner/d.rs`, which this run reads"),
)

# Runs that write: the other files before the run, the arguments, and the folder in which the files are afterwards.
TAKEN = (
    ("", "--write out", "out"),
    ("", "--write new/er/est", "new/er/est"),
    ("out/: ", "--write out/", "out"),
    ("out/lib.rs: old|out/b/other.rs: old", "--force --write out", "out"),
    ("out/lib.rs = other|other: old", "--force --write out", "out"),
    (f"out/lib.rs: old|out/b/c.rs: old|out/{LIST}: {HEADER}b/c.rs\nlib.rs\n", "--write out", "out"),
    ("out/.expandm-0.old: old|out/lib.rs: older", "--force --write out", "out"),
    ("out -> other|other/: ", "--write out", "other"),
    ("out/.expandm-0.tmp: old", "--write out", "out"),
    ("", "--extern d=dep/lib.rs --write dep/out", "dep/out"),
    ("", "--write src/out", "src/out"),
)


def make(folder, one):
    """Makes a file, a symbolic link or another name of a file. The file that it names is made first."""
    if " -> " in one:
        path, where = one.split(" -> ")
        os.makedirs(os.path.dirname(os.path.join(folder, path)), exist_ok=True)
        os.symlink(where, os.path.join(folder, path))
    elif " = " in one:
        path, file = one.split(" = ")
        os.makedirs(os.path.dirname(os.path.join(folder, path)), exist_ok=True)
        os.link(os.path.join(folder, file), os.path.join(folder, path))
    else:
        write(folder, *one.split(": ", 1))


def there(folder):
    """The content of a folder: the text of each file, and the target of each symbolic link."""
    found = {}
    for at, folders, names in os.walk(folder):
        for name in folders + names:
            path = os.path.join(at, name)
            if os.path.islink(path):
                found[os.path.relpath(path, folder)] = f"-> {os.readlink(path)}"
            elif name in names:
                found[os.path.relpath(path, folder)] = text_of(folder, path)
    return found


def ran_beside(program, beside, words, before=None):
    """A run beside the files, with the content of the folder before and after it. An empty argument follows a `|`."""
    with tempfile.TemporaryDirectory() as folder:
        for path, text in FILES.items():
            write(folder, path, text)
        for one in reversed([one for one in beside.split("|") if one]):
            make(folder, one)
        was = there(folder)
        words = [word.removesuffix("|") for word in words.split()] + [""] * words.count("|")
        return program.run_in(folder, [*words, "src/lib.rs"], before=before), was, there(folder)


def check_refused(program, row):
    """The run ends with status 2 and the error, and changes nothing."""
    beside, words, error = row
    ran, was, now = ran_beside(program, beside, words)
    program.check("writing.REFUSED", row, (ran.status, ran.out, ran.err, now), (2, "", f"error: {error}\n", was))


def check_taken(program, row):
    """The run writes the files into the folder, and changes nothing else."""
    beside, words, folder = row
    ran, was, now = ran_beside(program, beside, words)
    before = was.get(f"{folder}/{LIST}", HEADER)
    listed = before + "".join(path + "\n" for path in BECOME if path not in before.split("\n"))
    want = was | {f"{folder}/{path}": text for path, text in (BECOME | {LIST: listed}).items()}
    program.check("writing.TAKEN", row, (ran.status, ran.out, ran.err, now), (0, "", "", want))


def full_at(size):
    """Makes each write fail that would make a file longer than that."""
    def limit():
        signal.signal(signal.SIGXFSZ, signal.SIG_IGN)
        resource.setrlimit(resource.RLIMIT_FSIZE, (size, size))
    return limit


def check_full(program):
    """If a file can't be written to its end, all files that existed are unchanged, and no other file is left. In the rows, the limit is
    exceeded by `lib.rs` or by the list."""
    for name, size, beside in (
        ("lib.rs", 8, "out/lib.rs: old"),
        ("lib.rs", 8, ""),
        ("lib.rs", 8, f"out/lib.rs: old|out/b/other.rs: old|out/{LIST}: {HEADER}"),
        (LIST, 60, "out/lib.rs: old|out/b.rs: older"),
    ):
        ran, was, now = ran_beside(program, beside, "--force --write out", full_at(size))
        error = f"error: couldn't write `out/{name}`: File too large (os error 27)\n"
        program.check("writing.full", (name, beside), (ran.status, ran.out, ran.err, now), (2, "", error, was))


# Modes of a folder of another user, each with the error. With the first, no file can be made in the folder. With the second, no file in it
# can be replaced.
CLOSED = ((0o555, "Permission denied (os error 13)"), (0o1777, "Operation not permitted (os error 1)"))
NOBODY = 65534


def check_closed(program):
    """If the last file can't be written or renamed, the files before it are unchanged. Only root can make such a folder."""
    if os.getuid() != 0:
        return
    for mode, reason in CLOSED:
        with tempfile.TemporaryDirectory() as folder:
            for path, text in (FILES | {"out/lib.rs": "old", "out/b/c.rs": "old"}).items():
                write(folder, path, text)
            was = there(folder)
            for path in [folder, *(os.path.join(folder, it) for it in ("out", "out/lib.rs"))]:
                os.chown(path, NOBODY, NOBODY)
            os.chmod(f"{folder}/out/b", mode)
            ran = program.run_in(folder, ["--force", "--write", "out", "src/lib.rs"], before=lambda: os.setuid(NOBODY))
            error = f"error: couldn't write `out/b/c.rs`: {reason}\n"
            program.check("writing.CLOSED", mode, (ran.status, ran.out, ran.err, there(folder)), (2, "", error, was))


# Changes after a first run; what a run with `--check` reports; and its status. `PATH: TEXT` writes a file, and `-PATH` removes one.
CHECKED = (
    ("", "", 0),
    ("out/other.rs: x", "", 0),
    ("out/a.rs: y = 2;", "error: `out/a.rs` differs from the expansion\n", 1),
    ("out/a.rs: y = 1;\n", "error: `out/a.rs` differs from the expansion\n", 1),
    ("-out/b/c.rs", "error: `out/b/c.rs` is missing\n", 1),
    ("-out/a.rs|out/b.rs: x", "error: `out/a.rs` is missing\nerror: `out/b.rs` differs from the expansion\n", 1),
    ("-out/a.rs|out/a.rs/x: y", "error: `out/a.rs` differs from the expansion\n", 1),
    ("src/a.rs: y = m!(); z = m!();", "error: `out/a.rs` differs from the expansion\n", 1),
    (f"-out/{LIST}", "", 0),
)


def check_checked(program):
    """A run with `--check` after a run that wrote, and a change: it finds the change, and writes nothing."""
    for changes, error, status in CHECKED:
        with tempfile.TemporaryDirectory() as folder:
            for path, text in FILES.items():
                write(folder, path, text)
            program.run_in(folder, ["--write", "out", "src/lib.rs"])
            for change in (it for it in changes.split("|") if it):
                if change.startswith("-"):
                    os.remove(os.path.join(folder, change[1:]))
                else:
                    write(folder, *change.split(": ", 1))
            was = there(folder)
            ran = program.run_in(folder, ["--check", "--write", "out", "src/lib.rs"])
            want = (status, "", error, was)
            program.check("writing.CHECKED", changes, (ran.status, ran.out, ran.err, there(folder)), want)


def check_again(program):
    """A second run overwrites what the first wrote, and lists what it adds."""
    with tempfile.TemporaryDirectory() as folder:
        for path, text in FILES.items():
            write(folder, path, text)
        first = program.run_in(folder, ["--write", "out", "src/a.rs"])
        write(folder, "src/a.rs", "y = 3;")
        second = program.run_in(folder, ["--write", "out", "src/lib.rs"])
        got = (first.status, second.status, second.err, there(f"{folder}/out"))
        listed = HEADER + "a.rs\nlib.rs\nb.rs\nb/c.rs\n"
        program.check("writing.again", "two runs", got, (0, 0, "", BECOME | {"a.rs": "y = 3;", LIST: listed}))


def test(program):
    for row in REFUSED:
        check_refused(program, row)
    for row in TAKEN:
        check_taken(program, row)
    check_full(program)
    check_closed(program)
    check_checked(program)
    check_again(program)
