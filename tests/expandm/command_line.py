"""The options of the command line, and the one line of an error in it."""
import re

# Command lines of runs.
RUNS = (
    "a.rs",
    "-",
    "--once a.rs b.rs",
    "a.rs --depth 3 --fuel 0",
    "--depth=3 a.rs",
    "--depth 4 --depth 3 a.rs",
    "--call 3 a.rs",
    "--call 3:7 a.rs",
    "--edition 2018 a.rs",
    "--edition=2018 a.rs",
    "--dialect rustc a.rs",
    "--dialect=rust-analyzer a.rs",
    "--write out a.rs",
    "--write out --force a.rs",
    "--root . --root out a.rs",
    "--max-tokens 0 a.rs",
    "--no-modules a.rs",
    "--origin a.rs",
    "--trace --trace a.rs",
    "--json a.rs",
    "--cfg a a.rs",
    '--cfg a="b" a.rs',
    "--features a,b --features c a.rs",
    "--target wasm32-unknown-unknown a.rs",
    "--test a.rs",
    "--extern b=b.rs a.rs",
    "--extern b=b.rs --extern c=b.rs a.rs",
    "--lint a.rs",
    "--explain a.rs",
    "--explain=3:7 a.rs",
    "--explain=all a.rs",
    "-- a.rs",
    "-- -",
)

NO_FILE = "no FILE.rs is named, and there is no Cargo.toml in this folder or above it"
YEARS = "[possible values: 2015, 2018, 2021, 2024]"
DIALECTS = "[possible values: rust-analyzer, rustc]"
TARGETS = (
    "[possible values: x86_64-unknown-linux-gnu, x86_64-pc-windows-msvc, x86_64-apple-darwin, "
    "aarch64-apple-darwin, wasm32-unknown-unknown]"
)
CFG = "expected `NAME` or `NAME=\"VALUE\"`"
EXTERN = "expected a name, `=` and a path"
POSITION = "expected a line, or a line and a column"
EXPLAINED = "expected `all`, a line, or a line and a column"
NOT_A_NUMBER = "invalid digit found in string"

# A command line that is invalid, and its error.
ERRORS = (
    ("", NO_FILE),
    ("--trace", NO_FILE),
    ("--explain=3", NO_FILE),
    ("--extern b=b.rs", NO_FILE),
    ("--depth", "a value is required for '--depth <N>' but none was supplied"),
    ("--cfg", "a value is required for '--cfg <NAME[=\"VALUE\"]>' but none was supplied"),
    ("--features", "a value is required for '--features <A,B>' but none was supplied"),
    ("--extern", "a value is required for '--extern <NAME=PATH>' but none was supplied"),
    ("a.rs --depth=-1", "invalid value '-1' for '--depth <N>': -1 is not in 0..=4294967295"),
    ("--force a.rs", "the following required arguments were not provided: --write <DIR>"),
    ("--check a.rs", "the following required arguments were not provided: --write <DIR>"),
    ("a.rs --max-tokens 4294967296", "invalid value '4294967296' for '--max-tokens <N>': 4294967296 is not in 0..=4294967295"),
    ("a.rs --fuel x", f"invalid value 'x' for '--fuel <N>': {NOT_A_NUMBER}"),
    ("a.rs --depth 4294967296", "invalid value '4294967296' for '--depth <N>': 4294967296 is not in 0..=4294967295"),
    ("--html p.html --write out a.rs", "the argument '--html <PATH>' cannot be used with '--write <DIR>'"),
    ("--once --depth 3 a.rs", "the argument '--once' cannot be used with '--depth <N>'"),
    ("--call 3: a.rs", f"invalid value '3:' for '--call <LINE[:COL]>': {POSITION}"),
    ("--call x a.rs", f"invalid value 'x' for '--call <LINE[:COL]>': {POSITION}"),
    ("--explain=x a.rs", f"invalid value 'x' for '--explain[=<LINE[:COL]>]': {EXPLAINED}"),
    ("--explain=all:1 a.rs", f"invalid value 'all:1' for '--explain[=<LINE[:COL]>]': {EXPLAINED}"),
    ("--edition 19 a.rs", f"invalid value '19' for '--edition <YEAR>' {YEARS}"),
    ("--edition 2019 a.rs", f"invalid value '2019' for '--edition <YEAR>' {YEARS}; tip: a similar value exists: '2021'"),
    ("--dialect x a.rs", f"invalid value 'x' for '--dialect <DIALECT>' {DIALECTS}"),
    ("--target foo a.rs", f"invalid value 'foo' for '--target <TRIPLE>' {TARGETS}"),
    ("--cfg a=b a.rs", f"invalid value 'a=b' for '--cfg <NAME[=\"VALUE\"]>': {CFG}"),
    ('--cfg ="b" a.rs', f"invalid value '=\"b\"' for '--cfg <NAME[=\"VALUE\"]>': {CFG}"),
    ("--extern b a.rs", f"invalid value 'b' for '--extern <NAME=PATH>': {EXTERN}"),
    ("--extern b= a.rs", f"invalid value 'b=' for '--extern <NAME=PATH>': {EXTERN}"),
    ("--extern =b.rs a.rs", f"invalid value '=b.rs' for '--extern <NAME=PATH>': {EXTERN}"),
    ("--extern b=b.rs --extern b=c.rs a.rs", "invalid value 'b=c.rs' for '--extern <NAME=PATH>': expected each crate once"),
    ("--edtion 2018 a.rs", "unexpected argument '--edtion' found; tip: a similar argument exists: '--edition'"),
    ("--lint=1 a.rs", "unexpected value '1' for '--lint' found; no more were expected"),
    ("-x a.rs", "unexpected argument '-x' found; tip: to pass '-x' as a value, use '-- -x'"),
)

# The text of each file.
TEXT = "x = 1;\n"


def test(program):
    files = {"a.rs": TEXT, "b.rs": TEXT, "c.rs": TEXT, "out/": ""}
    for line in RUNS:
        words = line.split()
        is_quiet = any(word in words for word in ("--call", "--write", "--lint"))
        ran = program.run(words, files, TEXT)
        program.check("command_line.RUNS", line, (ran.status, ran.out, ran.err), (0, "" if is_quiet else TEXT, ""))
    for row in ERRORS:
        line, error = row
        ran = program.run(line.split(), files, TEXT)
        program.check("command_line.ERRORS", row, (ran.status, ran.out, ran.err), (2, "", f"error: {error}\n"))
    helps = {program.run(words).out for words in (["--help"], ["-h"], ["a.rs", "--help"])}
    (text,) = helps if len(helps) == 1 else ("",)
    names = re.findall(r"^  (?:-\w, |    )--([a-z-]+)", text, re.M)
    program.check("command_line.help", text, ("Usage: " in text, len(names)), (True, 44))
    for words in (["-V"], ["--version"], ["a.rs", "--version"]):
        ran = program.run(words)
        program.check("command_line.version", words, (ran.status, ran.out, ran.err), (0, "expandm 0.1.0\n", ""))
