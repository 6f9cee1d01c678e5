#!/usr/bin/env python3
"""Compares what `expandm` and rustc report of common mistakes in macros, and writes both as
tables.

Each row is a file with a definition, and a call or none. `expandm` runs on it with --lint and with
--explain, and so does rustc. The tables have what each reports first, with the location. For
`expandm` that is the error of --lint, or what --explain says, or the warning of --lint.

A row says how the two agree: they mark the same token, they mark different tokens, or `expandm` is
silent. The row fails if they agree otherwise. The script prints the tables, or with --write puts
them into docs/MACROS.md.
"""
import collections
import enum
import json
import os
import re
import sys
import typing

sys.path.insert(0, os.path.dirname(os.path.dirname(os.path.abspath(__file__))))
import common  # noqa: E402

PAGE = f"{common.TOP}/docs/MACROS.md"
BEGIN, END = "<!-- tools/rustc/mistakes.py writes from here -->\n", "<!-- up to here -->\n"
HEAD = "| Rules, and a call | `expandm` | rustc |\n|---|---|---|\n"


class Agreement(enum.Enum):
    """How the reports of `expandm` agree with the first one of rustc."""
    SAME = "they mark the same token, or neither reports anything"
    ELSEWHERE = "`expandm` marks another token"
    SILENT = "`expandm` reports nothing"


class Row(typing.NamedTuple):
    """The rules of a macro, the argument of a call or None, and how the reports agree."""
    rules: str
    argument: typing.Optional[str]
    agreement: Agreement = Agreement.SAME


GROUPS = {
    "A call that no rule matches": [
        Row("($($x:expr),*) => { 0 }", "1, 2,"),
        Row("({ $($f:ident: $t:ty),* }) => { 0 }", "{ x: u8, y }"),
        Row("($k:ident => $v:expr) => { 0 }; ($k:ident = $v:expr) => { 0 }", "a -> 1"),
        Row("($($x:ident),* ; $y:ty) => { 0 }", "a b"),
        Row("(a) => { 0 }", "a b"),
        Row("((a)) => { 0 }", "(a b)"),
        Row("(a $x:ident) => { 0 }", "a"),
        Row("[$x:ident] => { 0 }", "1"),
        Row("($l:lifetime) => { 0 }", "a"),
        Row("($x:literal) => { 0 }", "x"),
        # Here rustc marks the whole call, since there is nothing in it.
        Row("($($k:ident = $v:expr),+) => { 0 }", "", Agreement.ELSEWHERE),
        Row("($($x:expr);*) => { 0 }", "1, 2"),
        Row("(fn $n:ident ($($a:ident: $t:ty),*)) => { 0 }", "fn f(a u8)"),
        Row("([$($x:expr),*]) => { 0 }", "(1, 2)"),
        Row("(@sum $x:expr) => { 0 }; ($($x:expr),*) => { 0 }", "@sun 1"),
        Row("($($k:ident: $v:expr),+;) => { 0 }", "a: 1, b: 2"),
        # Here rustc marks the token inside the fragment, and `expandm` the fragment's first token.
        Row("($x:expr, $y:expr) => { 0 }", "1, 2 +", Agreement.ELSEWHERE),
        Row("($($e:expr),*) => { 0 }", "p.", Agreement.ELSEWHERE),
        Row("($x:expr) => { $x }", "[1"),
    ],
    "A call that a rule matches in several ways": [
        Row("($($a:ident)* $b:ident) => { 0 }", "x y"),
        Row("($(a)? $(a)? $x:ident) => { 0 }", "a b"),
        Row("($(a)? $(a)?) => { 0 }", "a"),
    ],
    "A definition that rustc refuses": [
        Row("", None, Agreement.ELSEWHERE),
        Row("($x:expr) { $x }", "1"),
        Row("($x:expr) => $x;", "1"),
        Row("($x:expr) => { $x } ($y:ident) => { $y }", "1"),
        Row("($x) => { 0 }", "1"),
        Row("($c:idnt) => { 0 }", "a"),
        Row("($($x:expr),) => { 0 }", "1", Agreement.ELSEWHERE),
        Row("($(a),?) => { 0 }", "a"),
        Row("(a $($v:vis)*) => { 0 }", "a"),
        Row("($e:expr -> $t:ty) => { 0 }", "1 -> u8"),
        Row("($p:pat | $q:pat) => { 0 }", "1 | 2"),
    ],
    "A template whose expansion rustc refuses": [
        Row("($($x:ident)*) => { $x }", "a b"),
        Row("($($($x:ident),*);*) => { [$(stringify!($x)),*] }", "a, b; c"),
        Row("($n:ident, $($x:ident),*) => { $($n)* }", "n, a"),
        Row("($($a:ident),*; $($b:ident),*) => { $(f!($a $($b)*);)* }", "a, b; c, d"),
        Row("($($a:ident),*; $($b:expr),*) => { { $(let $a = $b;)* 0 } }", "a, b; 1", Agreement.ELSEWHERE),
        Row("($x:ident) => { $y }", "a"),
        Row("($x:ident) => { $x:ident }", "a", Agreement.SILENT),
        Row("($($t:tt)*) => { m!($($t)* x) }", "a"),
        Row("(@go $($r:tt)*) => { m!(@go $($r)*) }; ($($t:tt)*) => { m!(@go $($t)*) }", "a: 1"),
    ],
    "Code that is unused, or seems so": [
        Row("(a) => { 0 }; (b) => { 1 }", "a", Agreement.SILENT),
        Row("() => { 0 }", None, Agreement.SILENT),
        Row("() => { 0 }; ($h:tt $($t:tt)*) => { 1 + m!($($t)*) }", "a b"),
    ],
}


def source(row):
    call = "" if row.argument is None else f"let _ = m!({row.argument});"
    return f"macro_rules! m {{ {row.rules} }}\nfn main() {{ {call} }}\n"


def by_rustc(path):
    """The first error of rustc, or else its first warning, with its location.

    The note on what rustc was trying to match is added to the message.
    """
    # rustc replaces what -o names by a file, even a device, so it gets a name beside the source.
    ran = common.rustc("-Wunused_macro_rules", "--error-format=json", "--emit=metadata",
                       "-o", f"{path}.rmeta", path)
    reported = [json.loads(line) for line in ran.stderr.splitlines()]
    for level in ("error", "warning"):
        for it in reported:
            if it["level"] == level and it["spans"]:
                span = next(span for span in it["spans"] if span["is_primary"])
                notes = [child["message"] for child in it["children"]
                         if child["message"].startswith("while trying")]
                return span["line_start"], span["column_start"], "; ".join([it["message"], *notes])
    return None


def reports(text):
    """The messages that `expandm` wrote, each with its level, line and column."""
    found = re.findall(r"^(\w+): (.*)\n *--> .*:(\d+):(\d+)$", text, re.M)
    return [(level, (int(line), int(column), message)) for level, message, line, column in found]


def by_expandm(linted, explained):
    """The first error of --lint; or else the messages of --explain on the rules that don't match,
    or its first one; or else the first warning of --lint."""
    lints = {level: (line, column, message + " (`--lint`)")
             for level, (line, column, message) in reversed(reports(linted))}
    explained = [report for _level, report in reports(explained)]
    on_rules = [it for it in explained if re.match(r"rule \d+ of `m!` (?!matches$)", it[2])]
    if "error" in lints:
        return [lints["error"]]
    return on_rules or explained[:1] or [lints[it] for it in ("warning",) if it in lints]


def agreement(ours, theirs):
    if theirs is None:
        return Agreement.ELSEWHERE if ours else Agreement.SAME
    if not ours:
        return Agreement.SILENT
    return Agreement.SAME if theirs[:2] in [it[:2] for it in ours] else Agreement.ELSEWHERE


def cell(text):
    return text.replace("|", "\\|").replace("`$$", "`$")


def token_at(text, line, column):
    rest = text.split("\n")[line - 1][column - 1:]
    found = re.match(r"\w+|=>|->|.", rest)
    return found.group(0) if found else "the end of the line"


def at(text, report):
    line, column, message = report
    return f"at `{token_at(text, line, column)}`: {message}"


def subject(row):
    rules = f"`{cell(row.rules)}`" if row.rules else "no rules"
    return f"{rules}, no call" if row.argument is None else f"{rules}, `m!({cell(row.argument)})`"


def compared(row, folder, program):
    """The line of a row, and how the reports agree."""
    path, text = f"{folder}/m.rs", source(row)
    common.write(path, text)
    linted, explained = [common.run([program, option, "m.rs"], cwd=folder).stderr
                         for option in ("--lint", "--explain")]
    ours, theirs = by_expandm(linted, explained), by_rustc(path)
    shown = "; ".join(at(text, it) for it in ours) or "nothing"
    rustc = at(text, theirs) if theirs else "nothing"
    return f"| {subject(row)} | {cell(shown)} | {cell(rustc)} |\n", agreement(ours, theirs)


def summary(counts):
    total = sum(counts.values())
    return (f"In {counts[Agreement.SAME]} of these {total} rows both programs mark the same token, or neither "
            f"reports anything.\n`expandm` marks another token in {counts[Agreement.ELSEWHERE]} rows, and "
            f"reports nothing in {counts[Agreement.SILENT]}.\n")


def tables(folder, program):
    """The tables with a summary, and a line for each row that fails."""
    text, failures, counts = "", [], collections.Counter()
    for title, rows in GROUPS.items():
        text += f"### {title}\n\n{HEAD}"
        for row in rows:
            line, found = compared(row, folder, program)
            text += line
            counts[found] += 1
            if found != row.agreement:
                failures.append(f"{subject(row)}: {found.value}, not: {row.agreement.value}")
        text += "\n"
    return text + "### How often they agree\n\n" + summary(counts), failures


def main():
    parser = common.arguments(__doc__)
    common.add_expandm(parser)
    parser.add_argument("--write", action="store_true", help="write the tables into docs/MACROS.md")
    args = parser.parse_args()
    with common.folder() as folder:
        text, failures = tables(folder, common.expandm(args.program))
    front, rest = common.read(PAGE).split(BEGIN)
    page = front + BEGIN + text + END + rest.split(END)[1]
    if args.write:
        common.write(PAGE, page)
    elif common.read(PAGE) != page:
        print(text, end="")
        failures.append("docs/MACROS.md has other tables; --write writes these")
    print("".join(line + "\n" for line in failures), end="")
    return common.finish(sum(map(len, GROUPS.values())) - len(failures), len(failures))


if __name__ == "__main__":
    sys.exit(main())
