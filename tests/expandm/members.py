"""The objects of `--json`, as a reader of JSON reads them. They have the members of rustc's `--error-format=json`. An object is a
diagnostic, and its children say more about it."""
import re

from expandm import diagnostics

# The members of an object, a child, a span, a line of text and a code, as rustc 1.95 writes them for a call that no rule matches. Those of a
# code are from an error that has one.
MEMBERS = {
    "diagnostic": ["$message_type", "message", "code", "level", "spans", "children", "rendered"],
    "child": ["message", "code", "level", "spans", "children", "rendered"],
    "span": [
        "file_name", "byte_start", "byte_end", "line_start", "line_end", "column_start", "column_end", "is_primary", "text", "label",
        "suggested_replacement", "suggestion_applicability", "expansion",
    ],
    "text": ["text", "highlight_start", "highlight_end"],
    "code": ["code", "explanation"],
}

# An argument, a file and its text; the status; and the diagnostics, each with its code and its children. A report has its level, its message, its
# location (the bytes, the line and the columns), the text of that line, and the carets below it. The last value is the width of the line
# numbers: all of a diagnostic are as wide as the longest one.
LONG = "\n" * 6 + "macro_rules! m { (a) => {} }\n" + "\n" * 3 + "m!(b);\n"
ROWS = (
    (
        "--explain", 'dir/a "b".rs', 'xyz\nmacro_rules! m { ("\\\\漢\n") => {} }\nx = m!(b);\n', 1,
        (
            (
                "no-matching-rule",
                ("error", "no rules expected `b`", (47, 48, 4, 8, 9), "x = m!(b);", "       ^"),
                (
                    "note", 'rule 1 of `m!` stops here; expected `"\\\\漢\n"`', (47, 48, 4, 8, 9), "x = m!(b);",
                    "       ^",
                ),
                (
                    "note", '`"\\\\漢\n"` in rule 1 of `m!`', (22, 22, 2, 19, 19), 'macro_rules! m { ("\\\\漢',
                    '                  ^',
                ),
                1,
            ),
        ),
    ),
    (
        "--explain", "a.rs", LONG, 1,
        (
            (
                "no-matching-rule",
                ("error", "no rules expected `b`", (41, 42, 11, 4, 5), "m!(b);", "   ^"),
                ("note", "rule 1 of `m!` stops here; expected `a`", (41, 42, 11, 4, 5), "m!(b);", "   ^"),
                (
                    "note", "`a` in rule 1 of `m!`", (24, 25, 7, 19, 20), "macro_rules! m { (a) => {} }",
                    "                  ^",
                ),
                2,
            ),
        ),
    ),
    (
        "--lint", "a.rs", "// 漢\nmacro_rules! m { ($x:tt) => {x} }\n", 1,
        (
            (
                "unused-variable",
                (
                    "warning", "unused macro variable: `$x`", (25, 30, 2, 19, 24), "macro_rules! m { ($x:tt) => {x} }",
                    "                  ^^^^^",
                ),
                (
                    "help", "if this is intentional, prefix it with an underscore: `$_x`", (25, 30, 2, 19, 24),
                    "macro_rules! m { ($x:tt) => {x} }", "                  ^^^^^",
                ),
                1,
            ),
        ),
    ),
)

# Messages without a location.
UNREADABLE = "couldn't read `b.rs`: No such file or directory (os error 2)"

FAILING = "macro_rules! m { (a) => { 1 }; (b) => { 2 } }\nconst A: u8 = m!(c);\n"
BOTH = "macro_rules! m { ($x:ident) => { $x } }\nconst A: u8 = m!(1);\nconst B: u8 = m!(2);\n"
INNER = "macro_rules! outer { () => { inner!() }; }\nmacro_rules! inner { (a) => { 1 }; }\nconst A: u8 = outer!();\n"
TWICE = "mod a { macro_rules! m { () => { 1 } } pub(crate) use m; }\nmod b { macro_rules! m { () => { 2 } } pub(crate) use m; }\n"
ONE = "rule 1 of `m!`"
TRYING = "note: while trying to match"
CALLING = "note: when calling this macro"

# Arguments, a text, and the diagnostics: each has its level and its message, and those of its children.
GROUPS = (
    # An error, with the closest rule and the definition.
    ("", FAILING, [["error: no rules expected `c`", f"{TRYING} `a` in {ONE}", CALLING]]),
    # Two errors.
    (
        "", BOTH,
        [[f"error: no rules expected `{it}`", f"{TRYING} meta-variable `$x:ident` in {ONE}", CALLING] for it in "12"],
    ),
    # The calls that led to an error.
    (
        "", INNER,
        [["error: unexpected end of macro invocation", f"{TRYING} `a` in rule 1 of `inner!`", CALLING,
          "note: in this macro invocation"]],
    ),
    # Each rule of a call that fails, with its parts.
    (
        "--explain", FAILING,
        [["error: no rules expected `c`", f"note: {ONE} stops here; expected `a`", f"note: `a` in {ONE}",
          "note: rule 2 of `m!` stops here; expected `b`", "note: `b` in rule 2 of `m!`"]],
    ),
    # Each rule of a call that is expanded is a diagnostic of its own.
    (
        "--explain=2", "macro_rules! m { (a) => { 1 }; ($x:ident) => { 2 } }\nconst A: u8 = m!(c);\n",
        [[f"note: {ONE} stops here; expected `a`", f"note: `a` in {ONE}"],
         ["note: rule 2 of `m!` matches", "note: `$x:ident` in rule 2 of `m!` is bound to `c`"]],
    ),
    # A macro that no file defines, with a help.
    (
        "", "macro_rules! pair { ($x:expr) => { ($x, $x) }; }\nfn main() { paer!(1); }\n",
        [["error: cannot find macro `paer` in this scope", "help: a macro with a similar name exists: `pair`",
          "note: similarly named macro `pair` defined here"]],
    ),
    # A call before the definition, and one that may mean two.
    ("", "m!();\nmacro_rules! m { () => {} }\n", [["note: cannot find macro `m` in this scope", "note: `m!` is defined here"]]),
    (
        "", TWICE + "const A: u8 = crate::a::m!();\n",
        [["note: cannot tell which macro `m` is", "note: `m!` is defined here", "note: `m!` is defined here"]],
    ),
    # Captures.
    (
        "", "macro_rules! m { ($x:ident) => { let $x = 1; a + $x } }\nfn f() { m!(a); }\n",
        [["note: in the expansion of `m!` this `a` is the one that the call binds", "note: `a` is bound here"]],
    ),
    (
        "", 'macro_rules! m { ($x:expr) => { let a = 1; f!("{a}", $x) } }\nfn f() { m!(a); }\n',
        [["note: `a` keeps its name, since this may be the one that a macro binds", "note: `a` is bound here"]],
    ),
    # A definition that is refused, a file that is missing, and a text that isn't Rust.
    ("", "macro_rules! m { ($x:expr) => }\nm!(1);\n", None),
    ("", "mod x;\n", [["note: file not found for module `x`: `x.rs` or `x/mod.rs`"]]),
    ("", 'fn main() { let s = "abc; }\n', [["error: unterminated double quote string"]]),
    # Steps, and the origins of tokens.
    (
        "--trace --origin", "macro_rules! m { () => { 1 } }\nconst A: u8 = m!();\n",
        [["note: expanding `m! {  }`", "note: to `1`"], ["note: `1` in the expansion of `m!`"]],
    ),
    # Lints.
    (
        "--lint", "macro_rules! m { ($x:tt) => {x} }\n",
        [["warning: unused macro variable: `$x`", "help: if this is intentional, prefix it with an underscore: `$_x`"]],
    ),
    (
        "--lint", "macro_rules! m {\n    ($($t:tt)*) => {};\n    (a) => {};\n    (b) => {};\n}\n",
        [["warning: unreachable rule: rule 1 matches everything it does", f"note: {ONE}"]] * 2,
    ),
)

# Another crate's definition, which has a fault.
FAULTY = {"a.rs": "b::m!();\n", "b.rs": "#[macro_export]\nmacro_rules! m { ($x:expr) => }\n"}


def part_of(file, row):
    """The object of the part of a line, in a report of a row."""
    (start, end, number, column, after), line = row[2:4]
    return {
        "file_name": file, "byte_start": start, "byte_end": end, "line_start": number, "line_end": number,
        "column_start": column, "column_end": after, "is_primary": True,
        "text": [{"text": line, "highlight_start": column, "highlight_end": after}],
        "label": None, "suggested_replacement": None, "suggestion_applicability": None, "expansion": None,
    }


def report(level, message, code, spans, children, rendered):
    code = code and {"code": code, "explanation": None}
    return {"message": message, "code": code, "level": level, "spans": spans, "children": children, "rendered": rendered}


def text_of(file, row, width):
    """The text of a report, with line numbers of that width."""
    level, message, (_, _, number, column, _), line, carets = row
    space = " " * width
    return f"{level}: {message}\n{space}--> {file}:{number}:{column}\n{space} |\n{number:{width}} | {line}\n{space} | {carets}\n"


def diagnostic_of(file, row):
    """The object of a diagnostic in a row, with its children."""
    code, (first, *rest), width = row[0], row[1:-1], row[-1]
    children = [report(*it[:2], None, [part_of(file, it)], [], None) for it in rest]
    bar = f"{' ' * width} |\n" if rest else ""
    text = text_of(file, first, width) + bar + "".join(text_of(file, it, width) for it in rest) + "\n"
    return {"$message_type": "diagnostic", **report(*first[:2], code, [part_of(file, first)], children, text)}


def unlike_rustc(err):
    """The objects of diagnostics whose members aren't rustc's, in rustc's order."""
    found = []
    for it in diagnostics(err):
        kinds = [("diagnostic", it), *(("child", child) for child in it["children"])]
        spans = [span for _, one in kinds for span in one["spans"]]
        kinds += [("span", span) for span in spans] + [("text", text) for span in spans for text in span["text"]]
        kinds += [("code", it["code"])] if it["code"] else []
        if not all(list(one) == MEMBERS[kind] for kind, one in kinds):
            found.append(it)
        if any(child["children"] or child["rendered"] is not None or "$message_type" in child for child in it["children"]):
            found.append(it)
    return found

# A call in an expansion whose lists have different lengths. With `--trace`, the call that led there belongs to the error, and not to a step.
TRACED = """\
macro_rules! inner { ($($a:ident)*, $($b:ident)*) => { ($($a + $b),*) }; }
macro_rules! outer { ($($t:tt)*) => { inner!($($t)*) }; }
fn f(x: u8, y: u8) { outer!(x y, x); }
"""
TRACED_GROUPS = [
    ["note: expanding", "note: to"],
    ["note: expanding", "note: to"],
    ["error: meta-variable `a` repeats 2 times, but `b` repeats 1 time", "note: in this macro invocation"],
]


def groups(err):
    return [[f"{it['level']}: {it['message']}" for it in (report, *report["children"])] for report in diagnostics(err)]


def groups_in_text(err):
    """The diagnostics in the form of rustc: an empty line ends each one, and its first line begins it."""
    parts = [it for it in err.split("\n\n") if ": " in it.split("\n")[0]]
    return [re.findall(r"^(?:\S* = )?((?:error|warning|note|help): .*)$", it, re.M) for it in parts]


def check_groups(program):
    for row in GROUPS:
        words, text, want = row
        err = program.run([*words.split(), "--json", "a.rs"], {"a.rs": text}).err
        if want is not None:
            program.check("members.GROUPS", row, groups(err), want)
        program.check("members.GROUPS like rustc's", row, unlike_rustc(err), [])
        program.check("members.GROUPS children", row, [it for it in diagnostics(err) if it["level"] == "help"], [])
        if words.startswith(("--explain", "--lint")):
            err = program.run([*words.split(), "a.rs"], {"a.rs": text}).err
            program.check("members.GROUPS in text", row, groups_in_text(err), want)
    for form in [], ["--origin"]:
        err = program.run(["--trace", *form, "--json", "a.rs"], {"a.rs": TRACED}).err
        got = [[re.sub(r"^(note: (?:expanding|to)) `.*$", r"\1", it, flags=re.S) for it in group] for group in groups(err)]
        got = [group for group in got if " in the expansion of `" not in group[0]]
        program.check("members.TRACED", form, got, TRACED_GROUPS)
    err = program.run(["--json", "--extern", "b=b.rs", "a.rs"], FAULTY).err
    got = [[it.partition("`m`")[0], *rest] for it, *rest in groups(err)]
    program.check("members.FAULTY", FAULTY, got, [["error: macro ", "note: `m!` is defined here"]])


def test(program):
    for row in ROWS:
        word, file, text, status, reports = row
        ran = program.run(["--json", word, file], {file: text})
        want = [diagnostic_of(file, it) for it in reports]
        program.check("members.ROWS", row, (ran.status, diagnostics(ran.err)), (status, want))
        program.check("members.ROWS like rustc's", row, unlike_rustc(ran.err), [])
        plain = program.run([word, file], {file: text}).err
        program.check("members.ROWS in text", row, plain.startswith("".join(it["rendered"] for it in want)), True)
    ran = program.run(["--json", "b.rs"])
    want = [{"$message_type": "diagnostic", **report("error", UNREADABLE, None, [], [], f"error: {UNREADABLE}\n\n")}]
    program.check("members.UNREADABLE", UNREADABLE, (ran.status, ran.out, diagnostics(ran.err)), (2, "", want))
    check_groups(program)
