"""Logs of `--sarif`: results with their kinds and regions, and which files are written. Regions were counted by hand, in code units of
UTF-16.
"""
import json

from expandm import defined, diagnostics
from expandm.packages import package

FAILING = "macro_rules! m { (a) => { 1 } }\n/* 😀 */ const A: u8 = m!(b);\n"


def place(uri, region):
    """The location of a region `LINE:COL-LINE:COL`."""
    (start, first), (end, last) = (map(int, it.split(":")) for it in region.split("-"))
    lines = {"startLine": start, "startColumn": first, "endLine": end, "endColumn": last}
    return {"physicalLocation": {"artifactLocation": {"uri": uri}, "region": lines}}


def result(kind, level, text, region, *details, uri="a.rs"):
    """A result, with the text and the region of each detail."""
    return {
        "ruleId": kind,
        "level": level,
        "message": {"text": text},
        "locations": [place(uri, region)],
        "relatedLocations": [{**place(uri, at), "message": {"text": more}} for more, at in details],
    }


FAILED = result(
    "no-matching-rule", "error", "no rules expected `b`", "2:27-2:28",
    ("while trying to match `a` in rule 1 of `m!`", "1:19-1:20"), ("when calling this macro", "1:14-1:15"),
)

# Options, a text, and its results.
RESULTS = (
    ("", "macro_rules! m { () => { 1 } }\nconst A: u8 = m!();\n", []),
    ("", FAILING, [FAILED]),
    ("", FAILING.replace("\n", "\r\n"), [FAILED]),
    # help and note
    (
        "",
        "macro_rules! pair { ($x:expr) => { ($x, $x) }; }\nfn main() { paer!(1); }\n",
        [result("unknown-macro", "error", "cannot find macro `paer` in this scope", "2:13-2:17",
                ("a macro with a similar name exists: `pair`", "2:13-2:17"), ("similarly named macro `pair` defined here", "1:14-1:18"))],
    ),
    # a warning with a note
    (
        "--lint",
        "macro_rules! m {\n    ($($t:tt)*) => {};\n    (a) => {};\n}\n",
        [result("unreachable-rule", "warning", "unreachable rule: rule 1 matches everything it does", "3:5-3:8", ("rule 1 of `m!`", "2:5-2:16"))],
    ),
    # a note with a note
    (
        "",
        "macro_rules! m { ($x:ident) => { let $x = 1; a + $x } }\nfn f() { m!(a); }\n",
        [result("captured-name", "note", "in the expansion of `m!` this `a` is the one that the call binds", "1:46-1:47",
                ("`a` is bound here", "2:13-2:14"))],
    ),
    # a note alone
    ("", "mod x;\n", [result("missing-file", "note", "file not found for module `x`: `x.rs` or `x/mod.rs`", "1:5-1:6")]),
    # a text that isn't Rust
    ("", 'fn main() { let s = "abc; }\n', [result("syntax", "error", "unterminated double quote string", "1:21-1:21")]),
)

# Options, a text, and the kinds of its results, with a letter for each level.
KINDS = (
    ("", defined("m { ($($i:ident)* $j:ident) => {} }", "m!(a b);"), "E ambiguous-call"),
    ("", defined("m { ($($i:ident)? $($j:ident)?) => {} }", "m!(a);"), "E ambiguous-call"),
    ("", defined("m { (a) => {} }", "m!();"), "E no-matching-rule"),
    ("", defined("m { () => { m!() } }", "m!();"), "E expansion-limit"),
    ("--fuel 0", defined("m { () => {} }", "m!();"), "E expansion-limit"),
    ("", defined("m { ($($a:ident)* ; $($b:ident)*) => { $($a $b)* } }", "m!(a b ; c);"), "E failed-expansion"),
    ("", defined("m { ($x:expr) => }", "m!(1);"), "E invalid-definition"),
    (
        "",
        "mod a { macro_rules! m { () => { 1 } } pub(crate) use m; }\nmod b { macro_rules! m { () => { 2 } } pub(crate) use m; }\n"
        "const A: u8 = crate::a::m!();\n",
        "N uncertain-macro",
    ),
    ("", "fn size() -> u8 { 1 }\nmacro_rules! m { () => { size() } }\nfn f(size: fn() -> u8) -> u8 { m!() }\n", "N captured-name"),
    ("", "#[cfg(all)]\nfn f() {}\n#[cfg(a b)]\nfn g() {}\n", "E syntax"),
    ("--trace", defined("m { () => { 1 } }", "m!();"), "N note"),
    (
        "--lint",
        "macro_rules! each { ($($x:exp),* $last:ident) => { $x $lst }; }\n",
        "E invalid-specifier; W unknown-variable; W unused-variable; E repetition-depth",
    ),
    ("--lint", "macro_rules! m { ($a:ident $a:ident) => {} }\n", "E duplicate-variable"),
    ("--lint", "macro_rules! m { ($e:expr [ ]) => {} }\n", "E follow-set"),
    ("--lint", "macro_rules! m { ($a:ident) => { $(x)* } }\n", "E repetition-without-variable"),
    ("--lint", "macro_rules! m { ($($a:ident),?) => {} }\n", "E repetition-separator"),
    ("--lint", "macro_rules! m {}\n", "E invalid-definition"),
)

# The name of a file, and its URI.
NAMES = (
    ("a.rs", "a.rs"),
    ("./a.rs", "a.rs"),
    ("b/../c/./a.rs", "c/a.rs"),
    ("a b%#?.rs", "a%20b%25%23%3F.rs"),
    ("c:d.rs", "c%3Ad.rs"),
    ("é😀.rs", "%C3%A9%F0%9F%98%80.rs"),
    ("/proc/self/cwd/a.rs", "file:///proc/self/cwd/a.rs"),
)

KEYS = {"$schema", "version", "runs"}


def logged(program, words, files, log="log.sarif"):
    """A run with `--sarif`, and its log as data."""
    ran = program.run([*words, "--sarif", log], files)
    return ran, json.loads(ran.files.get(log) or "null")


def results(log):
    return log and log["runs"][0]["results"]


def kinds(log):
    found = results(log) or []
    return "; ".join(f"{it['level'][0].upper()} {it['ruleId']}" for it in found)


def check_results(program):
    for row in RESULTS:
        words, text, want = row
        ran, log = logged(program, [*words.split(), "a.rs"], {"a.rs": text})
        program.check("sarif.RESULTS", row, results(log), want)
        plain = program.run([*words.split(), "a.rs"], {"a.rs": text})
        program.check("sarif.RESULTS", row, (ran.status, ran.out, ran.err), (plain.status, plain.out, plain.err))
    for row in KINDS:
        words, text, want = row
        _, log = logged(program, [*words.split(), "a.rs"], {"a.rs": text})
        program.check("sarif.KINDS", row, kinds(log), want)
        # The code of an object in JSON is the kind, but for notes without a kind of their own.
        found = diagnostics(program.run([*words.split(), "--json", "a.rs"], {"a.rs": text}).err)
        codes = "; ".join(f"{it['level'][0].upper()} {it['code']['code'] if it['code'] else 'note'}" for it in found)
        program.check("sarif.KINDS in JSON", row, codes, want)


def check_log(program):
    """The members of a log, and that each kind of a result is listed."""
    _, log = logged(program, ["a.rs"], {"a.rs": FAILING})
    (run,) = log["runs"]
    driver = run["tool"]["driver"]
    got = set(log), log["version"], set(run), run["columnKind"], driver["name"], driver["version"]
    program.check("sarif.log", "", got, (KEYS, "2.1.0", {"tool", "columnKind", "results"}, "utf16CodeUnits", "expandm", "0.1.0"))
    ids = [rule["id"] for rule in driver["rules"]]
    texts = {rule[name]["text"] for rule in driver["rules"] for name in ("shortDescription", "fullDescription", "help")}
    program.check("sarif.log", "a text for each kind", (len(texts), "" in texts), (len(ids), False))
    found = {want.split()[-1] for row in KINDS for want in row[2].split("; ")} | {it["ruleId"] for row in RESULTS for it in row[2]}
    program.check("sarif.log", "kinds", (len(set(ids)), found - set(ids), set(ids) - found), (len(ids), set(), set()))


def check_names(program):
    for row in NAMES:
        name, uri = row
        folders = {"b/": "", "c/": ""}
        path = name.removeprefix("/proc/self/cwd/")
        _, log = logged(program, [name], {**folders, path: FAILING})
        got = [it["locations"][0]["physicalLocation"]["artifactLocation"]["uri"] for it in results(log) or []]
        program.check("sarif.NAMES", row, got, [uri])


def check_files(program):
    """What a run writes, and what it refuses."""
    files = {"a.rs": FAILING}
    ran, log = logged(program, ["--write", "out", "a.rs"], files)
    program.check("sarif.files", "--write", (sorted(ran.files), results(log)), (["a.rs", "log.sarif", "out/.expandm", "out/a.rs"], [FAILED]))
    ran, log = logged(program, ["a.rs"], {**files, "x.sarif.json": "old"}, "x.sarif.json")
    program.check("sarif.files", "overwritten", results(log), [FAILED])
    ran, log = logged(program, ["--coverage", "a.rs"], files)
    program.check("sarif.files", "--coverage", (ran.out[:7], results(log)), ("a.rs:1:", [FAILED]))
    for words in ("--lint", "--write out"):
        ran = program.run([*words.split(), "--sarif", "-", "a.rs"], files)
        program.check("sarif.files", words, (set(json.loads(ran.out or "{}")), "-" in ran.files), (KEYS, False))
    ran = program.run(["--sarif", "no/x.sarif", "a.rs"], files)
    last = "error: couldn't write `no/x.sarif`: No such file or directory (os error 2)\n"
    program.check("sarif.files", "no folder", (ran.status, ran.err.endswith(last), ran.files), (2, True, files))
    ran = program.run(["--sarif", "x.sarif", "b.rs"], files)
    program.check("sarif.files", "no file", (ran.status, ran.files), (2, files))
    read_too = {"a.sarif": FAILING}
    for path in ("a.sarif", "./a.sarif", "/proc/self/cwd/a.sarif"):
        ran = program.run(["--sarif", path, "a.sarif"], read_too)
        error = f"error: `--sarif {path}` would overwrite `a.sarif`, which this run reads\n"
        program.check("sarif.files", path, (ran.status, ran.out, ran.err, ran.files), (2, "", error, read_too))
    for words, error in (
        ("--sarif a.rs a.rs", "invalid value 'a.rs' for '--sarif <FILE>': expected a name that ends in `.sarif` or `.sarif.json`"),
        ("--sarif x.json a.rs", "invalid value 'x.json' for '--sarif <FILE>': expected a name that ends in `.sarif` or `.sarif.json`"),
        ("--sarif - a.rs", "'--sarif -' needs '--lint' or '--write': other runs print something else"),
        ("--sarif x.sarif --plan", "the argument '--sarif <FILE>' cannot be used with '--plan'"),
    ):
        ran = program.run(words.split(), files)
        program.check("sarif.files", words, (ran.status, ran.out, ran.err, ran.files), (2, "", f"error: {error}\n", files))


def check_packages(program):
    """A log has the results of all targets. A result that several targets have is there once."""
    root = "mod common;\nmacro_rules! own { (a) => {} }\nown!(b);\n"
    files = {"Cargo.toml": package("p"), "src/bin/one.rs": root, "src/bin/two.rs": root, "src/bin/common/mod.rs": FAILING}
    for words in ([], ["--lint"]):
        ran, log = logged(program, ["--bins", *words], files)
        found = [it["locations"][0]["physicalLocation"]["artifactLocation"]["uri"] for it in results(log) or []]
        want = [] if words else ["src/bin/common/mod.rs", "src/bin/one.rs", "src/bin/two.rs"]
        program.check("sarif.packages", words, (sorted(found), ran.status), (want, 0 if words else 1))


def test(program):
    check_results(program)
    check_log(program)
    check_names(program)
    check_files(program)
    check_packages(program)
