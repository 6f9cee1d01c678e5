"""Coverage of rules: `--coverage` as text, as JSON and for lcov. The counts were worked out by hand."""
import json
import re

from expandm import defined
from expandm.packages import package

TEXT = """\
macro_rules! a {
    (x) => { 1 };
    (y) => { a!(x) };
    (z) => {};
}
fn f() { a!(x); a!(y); }
"""
LINES = """\
a.rs:2: 2  rule 1 of `a!`
a.rs:3: 1  rule 2 of `a!`
a.rs:4: 0  rule 3 of `a!` (never used)
2 of 3 rules used (1 of 1 macro)
"""
RULES = [{"rule": 1, "line": 2, "column": 5, "count": 2}, {"rule": 2, "line": 3, "column": 5, "count": 1}, {"rule": 3, "line": 4, "column": 5, "count": 0}]
DATA = {
    "version": 1,
    "rules": 3,
    "used_rules": 2,
    "macros": 1,
    "used_macros": 1,
    "files": [{"file": "a.rs", "macros": [{"name": "a", "line": 1, "column": 14, "rules": RULES}]}],
}
LCOV = """\
TN:
SF:a.rs
FN:2,a#1
FN:3,a#2
FN:4,a#3
FNDA:2,a#1
FNDA:1,a#2
FNDA:0,a#3
FNF:3
FNH:2
DA:2,2
DA:3,1
DA:4,0
LF:3
LH:2
end_of_record
"""

# The two rules of this macro are in one line.
TWO = "macro_rules! m { (a) => { 1 }; (b) => { 2 } }\n"

# Options, a text, and for each rule the name of its macro, its line and its count.
ROWS = (
    ("", "", ""),
    ("", "fn f() {}\n", ""),
    # calls that no rule matches, and calls of other macros
    ("", TWO + "m!(c);\nn!(a);\n", "m 1 0; m 1 0"),
    ("", TWO + "m!(b);\nm!(b);\n", "m 1 0; m 1 2"),
    # a call in an argument, in the argument of a macro of the standard library, and in a function of a module
    ("", TWO + "m!(m!(a));\n", "m 1 0; m 1 0"),
    ("", TWO + 'fn f() { println!("{}", m!(a)); }\nmod n { fn g() { m!(a); } }\n', "m 1 2; m 1 0"),
    # a second definition of the name
    ("", "macro_rules! m { () => { 1 } }\nm!();\nmacro_rules! m { () => { 2 } }\nm!();\nm!();\n", "m 1 1; m 3 2"),
    # definitions by `macro`
    ("", "macro m($x:expr) { $x }\nmacro n {\n  (a) => { 1 },\n  (b) => { 2 }\n}\nfn f() { m!(1); n!(b); }\n", "m 1 1; n 3 0; n 4 1"),
    # rules in parentheses and brackets, and for attributes
    ("", "macro_rules! m (\n  (a) => (1);\n  [b] => [2];\n);\nfn f() { m!(a); m!(b); m!(b); }\n", "m 2 1; m 3 2"),
    ("", "macro_rules! m {\n  attr() (a) => {};\n  (a) => { 1 };\n}\nm!(a);\n", "m 2 0; m 3 1"),
    # a definition in a template: it counts once an expansion has it
    ("", "macro_rules! o {\n  () => { macro_rules! i {\n    () => { 1 };\n    (a) => { 2 } } };\n}\n", "o 2 0"),
    ("", "macro_rules! o {\n  () => { macro_rules! i {\n    () => { 1 };\n    (a) => { 2 } } };\n}\no!();\ni!(a);\no!();\ni!(a);\n", "o 2 2; i 3 0; i 4 2"),
    # a definition in the argument of a call
    ("", "macro_rules! id { ($($t:tt)*) => { $($t)* } }\nid! {\n  macro_rules! m { () => { 1 } }\n}\nm!();\n", "id 1 1; m 3 1"),
    ("", "other! { macro_rules! m { () => { 1 } } }\n", ""),
    # a recursion
    ("", "macro_rules! m {\n  () => {};\n  ($a:tt $($b:tt)*) => { m!($($b)*) };\n}\nm!(a b c);\n", "m 2 1; m 3 3"),
    ("--once", "macro_rules! m {\n  () => {};\n  ($a:tt $($b:tt)*) => { m!($($b)*) };\n}\nm!(a b c);\n", "m 2 0; m 3 1"),
    # a definition that `cfg` disables
    ("", f"#[cfg(test)]\n{TWO}", ""),
    ("--test", f"#[cfg(test)]\n{TWO}#[cfg(test)]\nm!(a);\n", "m 2 1; m 2 0"),
    # a definition that is refused
    ("", "macro_rules! m { ($x:expr) => }\n", ""),
    # line ends with a carriage return, and characters of several bytes
    ("", "// é\r\n/* é */ macro_rules! m {\r\n(é) => {};\r\n}\r\nm!(é);\r\n", "m 3 1"),
)

LIBRARY = """\
#[macro_export]
macro_rules! m {
    (a) => { 1 };
    (b) => { 2 };
    (c) => { 3 };
}
const A: u8 = m!(a);
#[cfg(test)]
const T: u8 = m!(c);
"""
TEST = """\
mod common;
macro_rules! own { () => { p::m!(a) } }
const B: u8 = p::m!(b);
const C: u8 = own!();
"""
COMMON = "macro_rules! shared { () => { 1 } }\nconst S: u8 = shared!();\n"
PACKAGE = {
    "Cargo.toml": package("p"),
    "src/lib.rs": LIBRARY,
    "tests/one.rs": TEST,
    "tests/two.rs": TEST,
    "tests/common/mod.rs": COMMON,
}

# Options, and the lines of a run on the package. A file that several targets have is counted in each of them.
PACKAGES = (
    (
        "--lib",
        "src/lib.rs:3: 1  rule 1 of `m!`\nsrc/lib.rs:4: 0  rule 2 of `m!` (never used)\nsrc/lib.rs:5: 0  rule 3 of `m!` (never used)\n"
        "1 of 3 rules used (1 of 1 macro)\n",
    ),
    (
        "--lib --test",
        "src/lib.rs:3: 1  rule 1 of `m!`\nsrc/lib.rs:4: 0  rule 2 of `m!` (never used)\nsrc/lib.rs:5: 1  rule 3 of `m!`\n"
        "2 of 3 rules used (1 of 1 macro)\n",
    ),
    ("--test=one", "tests/one.rs:2: 1  rule 1 of `own!`\ntests/common/mod.rs:1: 1  rule 1 of `shared!`\n2 of 2 rules used (2 of 2 macros)\n"),
    (
        "--lib --tests",
        "src/lib.rs:3: 3  rule 1 of `m!`\nsrc/lib.rs:4: 2  rule 2 of `m!`\nsrc/lib.rs:5: 0  rule 3 of `m!` (never used)\n"
        "tests/one.rs:2: 1  rule 1 of `own!`\ntests/common/mod.rs:1: 2  rule 1 of `shared!`\ntests/two.rs:2: 1  rule 1 of `own!`\n"
        "5 of 6 rules used (4 of 4 macros)\n",
    ),
)

# Options that `--coverage` can't be used with, and how an error names them.
REFUSED = (
    ("--call 2", "--call <LINE[:COL]>"),
    ("--write out", "--write <DIR>"),
    ("--html out", "--html <PATH>"),
    ("--step 2", "--step <LINE[:COL]>"),
    ("--lint", "--lint"),
)

FIELD = re.compile(r"^a\.rs:(\d+): (\d+)  rule (\d+) of `(\w+)!`( \(never used\))?$", re.M)


def rules(out):
    """The rules of an output, or the output if a line has another form, or if a mark or a number of a rule is wrong."""
    found, last = [], ("", 0)
    for line in out.splitlines()[:-1]:
        field = FIELD.match(line)
        if not field or bool(field[5]) != (field[2] == "0"):
            return out
        number = int(field[3])
        if number not in (1, last[1] + 1):
            return out
        last = field[4], number
        found.append(f"{field[4]} {field[1]} {field[2]}")
    return "; ".join(found)


def totals(want):
    """The last line of an output with these rules."""
    counts = [int(one.split()[2]) for one in want.split("; ") if one]
    return sum(count > 0 for count in counts), len(counts)


def check_forms(program):
    files = {"a.rs": TEXT}
    for words in (["--coverage"], ["--coverage=text"]):
        ran = program.run([*words, "a.rs"], files)
        program.check("coverage.text", words, (ran.status, ran.out, ran.err), (0, LINES, ""))
    ran = program.run(["--coverage=json", "a.rs"], files)
    program.check("coverage.json", TEXT, (ran.status, ran.out.count("\n"), ran.err), (0, 1, ""))
    program.check("coverage.json", TEXT, json.loads(ran.out or "null"), DATA)
    ran = program.run(["--coverage=lcov", "a.rs"], files)
    program.check("coverage.lcov", TEXT, (ran.status, ran.out, ran.err), (0, LCOV, ""))
    ran = program.run(["--coverage", "-"], {}, TEXT)
    program.check("coverage.text", "-", (ran.status, ran.out), (0, LINES.replace("a.rs:", "-:")))
    ran = program.run(["--coverage=json", "a.rs"], {"a.rs": "fn f() {}\n"})
    none = {"version": 1, "rules": 0, "used_rules": 0, "macros": 0, "used_macros": 0, "files": [{"file": "a.rs", "macros": []}]}
    program.check("coverage.json", "without a macro", json.loads(ran.out or "null"), none)
    ran = program.run(["--coverage=lcov", "a.rs"], {"a.rs": "fn f() {}\n"})
    program.check("coverage.lcov", "without a macro", (ran.status, ran.out), (0, ""))


def check_rows(program):
    for row in ROWS:
        words, text, want = row
        ran = program.run([*words.split(), "--coverage", "a.rs"], {"a.rs": text})
        program.check("coverage.ROWS", row, rules(ran.out), want)
        used, count = totals(want)
        last = ran.out.splitlines()[-1] if ran.out else ""
        program.check("coverage.ROWS", row, last.split(" rule")[0], f"{used} of {count}")


def check_lcov(program):
    """Rules of one line, a name that two macros have, and a definition in a template."""
    text = TWO + "m!(b);\nm!(b);\nm!(a);\nmacro_rules! m {\n  () => {\n    macro_rules! n { () => {} }\n    n!(); };\n  (a) => {}\n}\nm!();\n"
    ran = program.run(["--coverage=lcov", "a.rs"], {"a.rs": text})
    names = re.findall("^FN:(.*)$", ran.out, re.M)
    program.check("coverage.lcov", "functions", names, ["1,m#1", "1,m#2", "6,m.2#1", "9,m.2#2", "7,n#1"])
    counts = re.findall("^FNDA:(.*)$", ran.out, re.M)
    program.check("coverage.lcov", "counts", counts, ["1,m#1", "2,m#2", "1,m.2#1", "0,m.2#2", "1,n#1"])
    lines = re.findall("^(?:DA|LF|LH):(.*)$", ran.out, re.M)
    program.check("coverage.lcov", "lines", lines, ["1,3", "6,1", "7,1", "9,0", "4", "3"])


def check_packages(program):
    for row in PACKAGES:
        words, want = row
        ran = program.run(["--coverage", *words.split()], PACKAGE)
        program.check("coverage.PACKAGES", row, (ran.status, ran.out, ran.err), (0, want, ""))
    ran = program.run(["--coverage=json", "--lib", "--tests"], PACKAGE)
    found = json.loads(ran.out or "null")
    files = [one["file"] for one in found["files"]]
    program.check("coverage.PACKAGES", "json", (files, found["rules"]), (["src/lib.rs", "tests/one.rs", "tests/common/mod.rs", "tests/two.rs"], 6))


def check_files(program):
    """Several files, and the macros of an external crate, which aren't shown."""
    other = TWO.replace("m {", "n {")
    files = {"a.rs": TWO, "b.rs": "fn f() { m!(a); d::n!(b); }\n", "d.rs": f"#[macro_export]\n{other}"}
    ran = program.run(["--coverage", "--extern", "d=d.rs", "a.rs", "b.rs"], files)
    want = "a.rs:1: 1  rule 1 of `m!`\na.rs:1: 0  rule 2 of `m!` (never used)\n1 of 2 rules used (1 of 1 macro)\n"
    program.check("coverage.files", "", (ran.status, ran.out, ran.err), (0, want, ""))
    name = "a\x1b[31m.rs"
    ran = program.run(["--coverage", name], {name: TEXT})
    program.check("coverage.files", name, ("\x1b" in ran.out, ran.status), (False, 0))


def check_errors(program):
    """Errors are reported as without `--coverage`; a run that fails prints no counts."""
    text = defined("m { (a) => {} }", "m!(b);\n")
    plain, ran = program.run(["a.rs"], {"a.rs": text}), program.run(["--coverage", "a.rs"], {"a.rs": text})
    program.check("coverage.errors", text, (ran.status, ran.err), (1, plain.err))
    ran = program.run(["--coverage", "b.rs"], {"a.rs": text})
    program.check("coverage.errors", "no file", (ran.status, ran.out), (2, ""))
    for words, other in REFUSED:
        ran = program.run(["--coverage", *words.split(), "a.rs"], {"a.rs": text})
        error = f"error: the argument '--coverage[=<FORM>]' cannot be used with '{other}'\n"
        program.check("coverage.REFUSED", words, (ran.status, ran.out, ran.err), (2, "", error))
    for words, error in (
        ("--coverage=xml a.rs", "invalid value 'xml' for '--coverage[=<FORM>]': expected `text`, `json` or `lcov`"),
        ("--coverage --plan", "the argument '--coverage[=<FORM>]' cannot be used with '--plan'"),
        ("--coverage --trace=json a.rs", "'--trace=json' cannot be used with '--coverage'"),
    ):
        ran = program.run(words.split(), {"a.rs": text})
        program.check("coverage.errors", words, (ran.status, ran.out, ran.err), (2, "", f"error: {error}\n"))


def test(program):
    check_forms(program)
    check_rows(program)
    check_lcov(program)
    check_packages(program)
    check_files(program)
    check_errors(program)
