#!/usr/bin/env python3
"""Compares the work of `expandm` on an input of n parts with that on 4 n parts: it must be at most
4.6 times as much.

Each row is a dimension of the input, such as the calls of a file or the tokens of a line, with the
options of the run. The script counts the instructions of a run by valgrind's callgrind, and
subtracts the instructions of a file without macros. Work that grows as n does has a ratio of 4, and
work that grows as its square has a ratio of 16. In some rows a pattern of n parts meets an argument
of n parts. Their work may grow as the product, so their limit is 17.6.

The script prints a table, the greatest ratio last. A row fails if its ratio is above its limit, or
if a run doesn't end in time.
"""
import concurrent.futures
import os
import subprocess
import sys
from typing import Callable, NamedTuple

sys.path.insert(0, os.path.dirname(os.path.dirname(os.path.abspath(__file__))))
import common  # noqa: E402

FACTOR, LIMIT, PRODUCT = 4, 4.6, 17.6
SIZE, SECONDS = 200, 300
ONE = "macro_rules! m { ($($t:tt)*) => { 1 } }\n"


class Row(NamedTuple):
    """A dimension: its name, its input for n parts, the options, the greatest n, and the limit.

    The input is the text of a.rs, or a dictionary of texts by paths, of which a.rs is the root.
    Options with n parts are a function of n.
    """

    name: str
    make: Callable
    words: object = ()
    most: int = 10**9
    limit: float = LIMIT


def joined(form, n, between="\n"):
    """The form for each number below n, with `@` for the number."""
    return between.join(form.replace("@", str(number)) for number in range(n))


def nested(opens, middle, closes):
    return lambda n: opens * n + middle + closes * n


def calls(n):
    return ONE + joined("fn f@() { m!(a @); }", n)


def bad_calls(n):
    return "macro_rules! m { (a $x:expr) => { $x }; (b) => {} }\n" + joined("fn f@() { m!(a @ b); }", n)


def rounds(n):
    return "macro_rules! m { ($($x:expr),*) => { [$($x + 1),*] } }\nx = m!(" + joined("@", n, ", ") + ");"


def definitions(n):
    return joined("macro_rules! m@ { ($x:ident) => { $x } }", n)


def called(n):
    return definitions(n) + "\n" + joined("fn f@() { m@!(a); }", n)


def locals_of(n):
    template = "macro_rules! m { ($x:expr) => { let a = $x; } }\nfn f(a: u8) {\n"
    return template + joined("m!(a);", n) + "\n}"


def mistaken(n):
    return joined("macro_rules! m@ { ($x:expr $y:ident) => { $z } }", n)


def rules_in_a_line(n):
    return "macro_rules! m { " + joined("(k@ $x:expr) => { $x };", n, " ") + " }\nx = m!(k0 1 2);"


def module_files(n):
    return {"a.rs": joined("mod b@;", n), **{f"b{number}.rs": ONE + "x = m!();" for number in range(n)}}


def path_chain(n):
    links = {f"p{number}.rs": f'#[path = "p{number + 1}.rs"] mod next;' for number in range(n)}
    return {"a.rs": '#[path = "p0.rs"] mod next;', **links, f"p{n}.rs": ONE + "x = m!();"}


def including(n):
    return {"a.rs": joined('include!("i@.rs");', n), **{f"i{number}.rs": "y = 1;" for number in range(n)}}


def with_externs(n):
    texts = {f"e{number}.rs": "#[macro_export] macro_rules! m { () => { 1 } }" for number in range(n)}
    return {"a.rs": joined("x = e@::m!();", n), **texts}


def externs(n):
    return [f"--extern=e{number}=e{number}.rs" for number in range(n)]


def optional(n):
    return f"macro_rules! m {{ ({'$(a)? ' * n}b) => {{ 1 }} }}\nx = m!({'a ' * n}b);"


def starred(n):
    return f"macro_rules! m {{ ({'$(a)* ' * n}) => {{ 1 }} }}\nx = m!({'a ' * n});"


def munched(n):
    return "macro_rules! m { () => { 1 }; ($x:tt $($t:tt)*) => { m!($($t)*) } }\nx = m!(" + "a " * n + ");"


ROWS = [
    # Files.
    Row("tokens", lambda n: joined("fn f@() { a + b * c; }", n)),
    Row("tokens of a line", lambda n: joined("fn f@() { a + b * c; }", n, " ")),
    Row("empty lines", lambda n: ONE + "\n" * 40 * n + "m!();"),
    Row("lines that end with carriage returns", lambda n: ONE + joined("fn f@() { m!(\r\n); }\r", n)),
    Row("comments", lambda n: joined("// a\n/* b */ x;", n)),
    Row("nested comments", lambda n: "/*" * 20 * n + "*/" * 20 * n),
    Row("bytes of a string", lambda n: f'x = "{"a" * 20 * n}";'),
    Row("names in strings", lambda n: "macro_rules! m { ($x:expr) => {{ let a = $x; "
        + joined('f!("{a} {b@}");', n) + " }} }\nfn f(a: u8) { m!(a); }"),
    Row("docs of an item", lambda n: joined("/// a @", n) + "\nfn f() {}"),
    Row("attributes of an item", lambda n: joined("#[a@]", n) + " fn f() {}"),
    Row("attributes of a call", lambda n: ONE + joined("#[allow(a@)]", n) + " m!();"),
    Row("conditions of an item", lambda n: ONE + joined("#[cfg(unix)]", n) + " fn f() { m!(); }"),
    Row("items with conditions", lambda n: ONE + joined("#[cfg(windows)] fn f@() { m!(); } #[cfg(unix)] fn g@() {}", n)),
    Row("parts of a condition", lambda n: f"#[cfg(any({'windows, ' * n}unix))] fn f() {{}}"),
    Row("imports", lambda n: ONE + joined("use a::b@;", n) + " x = m!();"),
    Row("imports of definitions", lambda n: joined("mod a@ { macro_rules! m@ { () => { 1 } } pub(crate) use m@; }", n)
        + joined("x = a@::m@!();", n)),
    # Nesting.
    Row("nested modules", nested("mod a { ", ONE + "x = m!();", " }"), most=200),
    Row("nested braces", nested("{ ", ONE + "m!();", " }"), most=200),
    Row("nested braces of a call", lambda n: "macro_rules! m { ($($t:tt)*) => { $($t)* } }\nfn f() { m!(" + "{ " * n + "1" + " }" * n + "); }",
        most=200, limit=PRODUCT),
    Row("nested calls", lambda n: "macro_rules! m { ($($t:tt)*) => { ($($t)*) } }\nx = " + "m!(" * n + "1" + ")" * n + ";", most=30,
        limit=PRODUCT),
    Row("nested groups of a definition", lambda n: "macro_rules! m { (" + "(" * n + ")" * n + ") => { 1 } }\nx = m!(" + "(" * n + ")" * n + ");",
        most=60),
    Row("nested repetitions", lambda n: "macro_rules! m { (" + "$(a " * n + "b)*" * n + ") => { 1 } }\nx = m!(" + "a " * n + "b " * n + ");",
        most=60, limit=PRODUCT),
    # Definitions and calls.
    Row("definitions", definitions),
    Row("definitions with calls", called),
    Row("definitions in functions", lambda n: joined("fn f@() { macro_rules! m@ { () => { 1 } } m@!(); }", n)),
    Row("definitions in modules", lambda n: joined("mod a@ { macro_rules! m { () => { 1 } } x = m!(); }", n)),
    Row("definitions of one name", lambda n: joined("macro_rules! m { () => { @ } } x@ = m!();", n)),
    Row("exported definitions", lambda n: joined("#[macro_export] macro_rules! m@ { () => { 1 } } x@ = crate::m@!();", n)),
    Row("macro items", lambda n: joined("macro m@() { 1 } fn f@() { m@!(); }", n)),
    Row("definitions by calls", lambda n: "macro_rules! d { ($n:ident) => { macro_rules! $n { () => { 1 } } } }\n"
        + joined("d!(m@); x@ = m@!();", n)),
    Row("calls", calls),
    Row("calls of a line", lambda n: ONE + joined("m!(a @);", n, " ")),
    Row("calls of a function", lambda n: ONE + "fn f() {\n" + joined("m!(a @);", n) + "\n}"),
    Row("calls of other macros", lambda n: joined("fn f@() { other!(a @); }", n)),
    Row("calls in arguments of println", lambda n: ONE + joined('fn f@() { println!("{}", m!()); }', n)),
    Row("calls of an expansion", lambda n: ONE + "macro_rules! o { () => {{ " + "m!(); " * n + "}} }\nfn f() { o!(); }"),
    Row("locals of one name", locals_of),
    Row("locals of functions with calls", lambda n: "macro_rules! m { ($x:expr) => { a + $x } }\n"
        + joined("fn f@(b@: u8) { let c@ = 1; let a@ = m!(b@); }", n)),
    Row("locals of an expansion", lambda n: "macro_rules! m { ($x:expr) => {{ " + joined("let a@ = $x;", n, " ")
        + " }} }\nfn f(a0: u8) { m!(a0); }"),
    Row("labels", lambda n: "macro_rules! m { ($($t:tt)*) => { 'a: loop { break 'a; $($t)* } } }\nfn f() {\n" + joined("m!(break 'a);", n) + "}"),
    Row("words of an argument", lambda n: "macro_rules! m { ($($x:ident)*) => {{ let a = 1; $($x;)* }} }\nfn f() { m!("
        + joined("a@", n, " ") + "); }"),
    # Rules.
    Row("rounds", rounds),
    Row("rounds of tokens", lambda n: "macro_rules! m { ($($t:tt)*) => { f($($t)*) } }\nx = m!(" + "a " * n + ");"),
    Row("tokens of a template", lambda n: "macro_rules! m { () => {{ " + joined("f(@);", n) + " }} }\nfn f() { m!(); }"),
    Row("tokens of a pattern", lambda n: f"macro_rules! m {{ ({joined('a@', n, ' ')}) => {{ 1 }} }}\nx = m!({joined('a@', n, ' ')});"),
    Row("variables", lambda n: f"macro_rules! m {{ ({joined('$a@:tt', n, ' ')}) => {{ f({joined('$a@', n, ',')}) }} }}\nx = m!({'a ' * n});"),
    Row("rules", lambda n: "macro_rules! m { " + joined("(k@ $x:expr) => { $x };", n) + f" }}\nx = m!(k{n - 1} 1);"),
    Row("rules that differ at the end", lambda n: f"macro_rules! m {{ {joined('(a k@) => { 1 };', n)} }}\nx = m!(a k{n - 1});"),
    Row("steps of a call", lambda n: "macro_rules! m { () => { 1 } }\nmacro_rules! o { () => {{ " + "m!() + " * n + "0 }} }\nfn f() { o!(); }"),
    Row("tokens that a macro takes one by one", munched, ("--depth=100000",), most=60, limit=PRODUCT),
    Row("optional parts on words", optional, most=120, limit=PRODUCT),
    Row("repetitions on words", starred, most=120, limit=PRODUCT),
    # Files and options.
    Row("files of modules", module_files, most=250),
    Row("included files", including, most=250),
    Row("a chain of #[path]", path_chain, most=120),
    Row("external crates", with_externs, externs, most=60),
    Row("options of cfg", lambda n: ONE + "#[cfg(a0)] fn f() { m!(); }", lambda n: [f"--cfg=a{number}" for number in range(n)]),
    Row("features", lambda n: ONE + '#[cfg(feature = "a0")] fn f() { m!(); }', lambda n: ["--features=" + joined("a@", 8 * n, ",")], most=200),
    # Messages.
    Row("errors", bad_calls),
    Row("errors of a line", lambda n: bad_calls(n).replace("\nfn", " fn"), most=250, limit=PRODUCT),
    Row("notes on names", lambda n: joined("mod a@ { macro_rules! m { () => { 1 } } }", n) + joined("fn f@() { m!(); }", n), limit=PRODUCT),
    Row("faults of definitions", lambda n: joined("macro_rules! m@ { ($x:what) => {} }", n)),
    Row("text that isn't Rust", lambda n: joined("fn f@() {}", n) + '"'),
    Row("lints", mistaken, ("--lint",)),
    Row("lints of rules in a line", rules_in_a_line, ("--lint",)),
    Row("explained rules in a line", rules_in_a_line, ("--explain=all",), most=120, limit=PRODUCT),
    Row("explained optional parts on words", optional, ("--explain=2",), most=60, limit=PRODUCT),
]

# Options that each of some rows is tried with.
OPTIONS = (("--trace",), ("--origin",), ("--explain",), ("--lint",), ("--json",), ("--trace", "--json"), ("--once",), ("--call=3",), ("--test",),
           ("--dialect=rust-analyzer",), ("--write=out",), ("--no-modules",), ("--edition=2015",), ("--root=.",))
WITH_OPTIONS = (("calls", calls), ("errors", bad_calls), ("rounds", rounds), ("definitions with calls", called),
                ("locals of one name", locals_of))


def all_rows():
    more = [Row(name, make, words) for name, make in WITH_OPTIONS for words in OPTIONS]
    return ROWS + more


def instructions(program, row, n):
    """The instructions of a run on n parts."""
    made = row.make(n)
    files = made if isinstance(made, dict) else {"a.rs": made}
    words = row.words(n) if callable(row.words) else row.words
    with common.folder() as room:
        for path, text in files.items():
            common.write(f"{room}/{path}", text)
        return common.instructions([program, *words, "a.rs"], statuses=(0, 1), cwd=room, timeout=SECONDS)


def ratio_of(program, row, size):
    """The row with n, the instructions above those of an empty file on n parts and on 4 n, and their ratio."""
    n = min(size, row.most)
    empty = Row(row.name, lambda _: "\n", () if callable(row.words) else row.words)
    try:
        least = instructions(program, empty, 0)
        once, more = (instructions(program, row, it) - least for it in (n, FACTOR * n))
    except subprocess.TimeoutExpired:
        return row, n, 0, 0, float("inf")
    return row, n, once, more, more / max(once, 1)


def main():
    parser = common.arguments(__doc__)
    parser.add_argument("program", metavar="EXPANDM", nargs="?", type=os.path.abspath,
                        help="the program expandm; if left out, this checkout's, without proof")
    parser.add_argument("--size", type=int, default=SIZE, help=f"the n of most rows ({SIZE})")
    parser.add_argument("--jobs", type=int, default=1, help="rows that are measured at a time (1)")
    parser.add_argument("--only", metavar="TEXT", help="only rows with this text in their name or options")
    args = parser.parse_args()
    program = common.expandm(args.program)
    rows = [row for row in all_rows() if not args.only or args.only in f"{row.name} {row.words}"]
    with concurrent.futures.ThreadPoolExecutor(args.jobs) as pool:
        found = list(pool.map(lambda row: ratio_of(program, row, args.size), rows))
    found.sort(key=lambda it: it[4] / it[0].limit)
    table = [(row.name, "with n" if callable(row.words) else " ".join(row.words), n, f"{once / 1e6:.1f}", f"{more / 1e6:.1f}", f"{ratio:.2f}",
              row.limit) for row, n, once, more, ratio in found]
    common.print_table(("Dimension", "Options", "n", "Millions at n", "at 4 n", "Ratio", "Limit"), table)
    failed = sum(ratio > row.limit for row, _, _, _, ratio in found)
    return common.finish(len(found) - failed, failed)


if __name__ == "__main__":
    sys.exit(main())
