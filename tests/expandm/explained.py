"""Reports on calls beside errors: explanations of rules, steps, and the origins of tokens. These are worked out by hand: where each rule
stops, what it expects there, what its variables are bound to, and the origin of each token.
"""
import re

from expandm import defined, joined, notes, notes_in_lines, objects, shown

# A definition, a call in the next line, and the notes on its rules, each with its line and column.
ROWS = (
    (
        "m { ($($x:expr),*) => {} }",
        "m!(1, 2,);",
        "2:9 rule 1 of `m!` stops here; expected `$x:expr`; 1:22 `$x:expr` in rule 1 of `m!`; ",
    ),
    (
        "m { ($($n:ident : $t:ty),*) => {} }",
        "m!(x: u8, y);",
        "2:12 rule 1 of `m!` stops here; expected `:`; 1:30 `:` in rule 1 of `m!`; ",
    ),
    (
        "m { ($($a:ident)* $b:ident) => {} }",
        "m!(x y);",
        "2:4 rule 1 of `m!` is ambiguous here: it can continue with `$a:ident` or `$b:ident`; "
        "1:22 `$a:ident` in rule 1 of `m!`; "
        "1:33 `$b:ident` in rule 1 of `m!`; ",
    ),
    (
        "m { ($k:ident => $v:ty) => {}; ($k:ident = $v:ty) => {} }",
        "m!(a + u8);",
        "2:6 rule 1 of `m!` stops here; expected `=>`; "
        "1:28 `=>` in rule 1 of `m!`; "
        "2:6 rule 2 of `m!` stops here; expected `=`; "
        "1:55 `=` in rule 2 of `m!`; ",
    ),
    (
        "m { ($($x:ident),* ; $y:ty) => {} }",
        "m!(a b);",
        "2:6 rule 1 of `m!` stops here; expected `,` or `;`; "
        "1:30 `,` in rule 1 of `m!`; "
        "1:33 `;` in rule 1 of `m!`; ",
    ),
    ("m { (a) => {} }", "m!(a b);", "2:6 rule 1 of `m!` stops here; expected the end of the call; "),
    ("m { ((a)) => {} }", "m!((a b));", "2:7 rule 1 of `m!` stops here; expected the end of the group; "),
    (
        "m { (a) => {}; (b) => {} }",
        "m!(b);",
        "2:4 rule 1 of `m!` stops here; expected `a`; 1:19 `a` in rule 1 of `m!`; 2:5 rule 2 of `m!` matches; ",
    ),
    (
        "m { ($(a)? $(a)?) => {} }",
        "m!(a);",
        "2:4 rule 1 of `m!` matches the call in several ways: here it can continue with `a` or `a`; "
        "1:21 `a` in rule 1 of `m!`; "
        "1:27 `a` in rule 1 of `m!`; ",
    ),
    (
        "m { ($(a)? $(a)? $x:ident) => {} }",
        "m!(a b);",
        "2:4 rule 1 of `m!` is ambiguous here: it can continue with `a` or `$x:ident`; "
        "1:21 `a` in rule 1 of `m!`; "
        "1:32 `$x:ident` in rule 1 of `m!`; ",
    ),
    (
        "m { ($(1)? $(1)? $x:ident) => {} }",
        "m!(1 c);",
        "2:6 rule 1 of `m!` is ambiguous here: it can continue with `$x:ident` in two ways; "
        "1:32 `$x:ident` in rule 1 of `m!`; ",
    ),
    (
        "m { ($a:ident $($x:expr),* ; $([$($y:ident)*])*) => {} }",
        "m!(k 1, 2 + 3; [a b] [] [c]);",
        "2:28 rule 1 of `m!` matches; "
        "1:20 `$a:ident` in rule 1 of `m!` is bound to `k`; "
        "1:31 `$x:expr` in rule 1 of `m!` is bound to `1`, `2 + 3` (2 rounds); "
        "1:49 `$y:ident` in rule 1 of `m!` is bound to (`a`, `b`), nothing, (`c`) (3 rounds); ",
    ),
    (
        "m { ($v:vis fn $($x:ty),* ; $($y:ty);*) => {} }",
        "m!(fn ; u8);",
        "2:11 rule 1 of `m!` matches; "
        "1:20 `$v:vis` in rule 1 of `m!` is bound to nothing; "
        "1:32 `$x:ty` in rule 1 of `m!` is bound to nothing; "
        "1:45 `$y:ty` in rule 1 of `m!` is bound to `u8` (1 round); ",
    ),
    (
        "m { ($b:block) => {} }",
        "m!({ let a = 1; a });",
        "2:20 rule 1 of `m!` matches; 1:20 `$b:block` in rule 1 of `m!` is bound to `{ let a = 1; a }`; ",
    ),
    (
        "m { ($($t:tt)*) => {} }",
        "m!(a b c d e f g h i j k l m n o p q r);",
        "2:39 rule 1 of `m!` matches; "
        "1:22 `$t:tt` in rule 1 of `m!` is bound to `a`, `b`, `c`, `d`, `e`, `f`, `g`, `h`, `i`, `j`, `k`, `l`, `m`, `n`, "
        "`o`, `p`, … (18 rounds); ",
    ),
    (
        "m { ($e:expr) => {} }",
        'm!("123456789 123456789 123456789 123456789 123456789 123456789 ");',
        "2:66 rule 1 of `m!` matches; "
        '1:20 `$e:expr` in rule 1 of `m!` is bound to `"123456789 123456789 123456789 123456789 123456789 123456789…`; ',
    ),
    (
        "m { ($e:expr) => {} }",
        'm!("123456789 123456789 123456789 123456789 123456789 12345678");',
        "2:64 rule 1 of `m!` matches; "
        '1:20 `$e:expr` in rule 1 of `m!` is bound to `"123456789 123456789 123456789 123456789 123456789 12345678"`; ',
    ),
    (
        "m { ($e:expr) => {} }",
        'm!("123456789 123456789 123456789 123456789 123456789 1234567漢漢");',
        "2:65 rule 1 of `m!` matches; "
        '1:20 `$e:expr` in rule 1 of `m!` is bound to `"123456789 123456789 123456789 123456789 123456789 1234567漢…`; ',
    ),
)

# A definition, a call in the next line, and the origin of each token of each expansion, in the order of the steps. The origin of a group
# is that of its opening. An expression with operators is in parentheses. The variable in the template is their origin.
ORIGINS = (
    ("m { ($x:ident) => { fn $x() {} } }", "m!(a);", "1:34 `fn`; 2:4 `a`; 1:39 `(`; 1:42 `{`; "),
    (
        "m { ($e:expr) => { const A: u8 = $e; } }",
        "m!(1 + 2);",
        "1:33 `const`; 1:39 `A`; 1:40 `:`; 1:42 `u8`; 1:45 `=`; 1:48 `(`; 2:4 `1`; 2:6 `+`; 2:8 `2`; 1:49 `;`; ",
    ),
    (
        "m { (a $x:ident) => { m!(b $x); }; (b $x:ident) => { struct $x; } }",
        "m!(a C);",
        "1:36 `m`; 1:37 `!`; 1:38 `(`; 1:39 `b`; 2:6 `C`; 1:44 `;`; 1:67 `struct`; 2:6 `C`; 1:76 `;`; ",
    ),
    ("m { ($($x:ident)*) => { $(struct $x;)* } }", "m!();", ""),
)

# A definition, a call in the next line, and the notes of rustc 1.95 under `trace_macros`, each at its call. Line breaks don't count.
STEPS = (
    ("m { ($x:ident) => { fn $x() {} } }", "m!(a);", "2:1 expanding `m! { a }`; 2:1 to `fn a () {}`; "),
    (
        "m { (a $x:ident) => { m!(b $x); }; (b $x:ident) => { struct $x; } }",
        "m!(a C);",
        "2:1 expanding `m! { a C }`; 2:1 to `m! (b C);`; 1:36 expanding `m! { b C }`; 1:36 to `struct C;`; ",
    ),
    (
        "p { ($($k:ident = $v:expr),*) => { const ALL: &[(&str, u8)] = &[$((stringify!($k), $v)),*]; } }",
        "p!(x = 1, y = 3);",
        "2:1 expanding `p! { x = 1, y = 3 }`; "
        "2:1 to `const ALL : & [(& str, u8)] = & [(stringify! (x), 1), (stringify! (y), 3)];`; ",
    ),
)

# Arguments, a file, and its reports: the example of docs/EXPANDM.md, and a file with tabs and wide characters. A tab has four columns, and
# a wide character two.
REPORTS = (
    (
        "--explain=2:13 a.rs",
        """\
macro_rules! pair { ($k:ident => $v:expr) => {}; ($k:ident = $v:expr) => {}; }
fn main() { pair!(a -> 1); pair!(b = 2 + 3); }
""",
        """\
error: no rules expected `->`
 --> a.rs:2:21
  |
2 | fn main() { pair!(a -> 1); pair!(b = 2 + 3); }
  |                     ^
  |
note: rule 1 of `pair!` stops here; expected `=>`
 --> a.rs:2:21
  |
2 | fn main() { pair!(a -> 1); pair!(b = 2 + 3); }
  |                     ^
note: `=>` in rule 1 of `pair!`
 --> a.rs:1:31
  |
1 | macro_rules! pair { ($k:ident => $v:expr) => {}; ($k:ident = $v:expr) => {}; }
  |                               ^
note: rule 2 of `pair!` stops here; expected `=`
 --> a.rs:2:21
  |
2 | fn main() { pair!(a -> 1); pair!(b = 2 + 3); }
  |                     ^
note: `=` in rule 2 of `pair!`
 --> a.rs:1:60
  |
1 | macro_rules! pair { ($k:ident => $v:expr) => {}; ($k:ident = $v:expr) => {}; }
  |                                                            ^

1 error; 1 of 2 calls expanded
""",
    ),
    (
        "--explain=9 a.rs",
        'macro_rules! m { (a) => {} }\n\tx("漢", m!(b));',
        """\
error: no rules expected `b`
 --> a.rs:2:12
  |
2 |     x("漢", m!(b));
  |                ^
  |
note: while trying to match `a` in rule 1 of `m!`
 --> a.rs:1:19
  |
1 | macro_rules! m { (a) => {} }
  |                   ^
note: when calling this macro
 --> a.rs:1:14
  |
1 | macro_rules! m { (a) => {} }
  |              ^

1 error; 0 of 1 call expanded
""",
    ),
)

# Arguments, the file of the example, and the notes on it.
NOTES = (
    (
        "--explain=3 a.rs",
        """\
macro_rules! pair { ($k:ident => $v:expr) => {}; ($k:ident = $v:expr) => {}; }
fn main() { pair!(a -> 1); pair!(b = 2 + 3); }
""",
        "1:31 while trying to match `=>` in rule 1 of `pair!`; 1:14 when calling this macro; ",
    ),
    (
        "--explain=2:28 a.rs",
        """\
macro_rules! pair { ($k:ident => $v:expr) => {}; ($k:ident = $v:expr) => {}; }
fn main() { pair!(a -> 1); pair!(b = 2 + 3); }
""",
        "1:31 while trying to match `=>` in rule 1 of `pair!`; 1:14 when calling this macro; "
        "2:36 rule 1 of `pair!` stops here; expected `=>`; "
        "1:31 `=>` in rule 1 of `pair!`; "
        "2:43 rule 2 of `pair!` matches; "
        "1:52 `$k:ident` in rule 2 of `pair!` is bound to `b`; "
        "1:63 `$v:expr` in rule 2 of `pair!` is bound to `2 + 3`; ",
    ),
)

# Arguments, a file, and its objects. Bytes count in the file as it is, also if its lines end with carriage returns.
OBJECTS = (
    (
        "--explain=2 a.rs",
        "macro_rules! m { (a) => {} }\r\nm!(b);",
        """\
2:4 33..34 error: no rules expected `b`
2:4 33..34 note: rule 1 of `m!` stops here; expected `a`
1:19 18..19 note: `a` in rule 1 of `m!`
""",
    ),
)

# A macro of 20 rules, each in a line of its own, and a call in line 23. Rule 13 reaches the `d`, and all other rules stop at the `b`.
TWENTY = "macro_rules! m {\n" + "".join(f"    ({'a b c' if number == 13 else f'a r{number}'}) => {{}};\n" for number in range(1, 21)) + "}\nm!(a b d);\n"
CLOSEST_FIRST = (13, *range(1, 13), *range(14, 21))

# A macro of five rules, of which two expect a text with a line feed. Two notes are on each rule. So the explanation has 60 lines: five of
# the error, one after it, 50 of the notes, and four for the line feeds.
FIVE = "macro_rules! m { (a b) => {}; (a c) => {}; (a d) => {}; (a \"e\nf\") => {}; (a \"g\nh\") => {}; }\n"

# Arguments, a file, and how many lines the explanation of its call has. If not all lines are shown, the last one says how many aren't.
LENGTHS = (
    ("--explain a.rs", FIVE + "m!(a x);\n", 60, None),
    # The error has one more line, so that 61 lines are too many. The last note has six lines.
    ("--explain a.rs", FIVE + 'm!(a "x\ny");\n', 56, 6),
    ("--explain=all a.rs", FIVE + 'm!(a "x\ny");\n', 61, None),
    ("--explain=4 a.rs", FIVE + 'm!(a "x\ny");\n', 61, None),
    # The error itself is whole.
    ("--explain a.rs", 'macro_rules! m { (a) => {} }\nm!("' + "\n" * 70 + '");\n', 77, 10),
    ("--explain a.rs", TWENTY, 57, 150),
    ("--explain=all a.rs", TWENTY, 206, None),
    ("--explain=23 a.rs", TWENTY, 206, None),
    ("--explain=23:1 a.rs", TWENTY, 206, None),
)


# The file crates/expandm/data/mistake.rs, the explanation of its call, and the line of the expansion once the missing `:` is there.
MISTAKE = """\
macro_rules! pairs {
    ($($key:ident: $value:expr),*) => {
        [$((stringify!($key), $value)),*]
    };
}

fn main() {
    let sizes = pairs!(width: 2, height 3);
    println!("{sizes:?}");
}
"""
MISTAKE_EXPLAINED = """\
error: no rules expected `3`
 --> mistake.rs:8:41
  |
8 |     let sizes = pairs!(width: 2, height 3);
  |                                         ^
  |
note: rule 1 of `pairs!` stops here; expected `:`
 --> mistake.rs:8:41
  |
8 |     let sizes = pairs!(width: 2, height 3);
  |                                         ^
note: `:` in rule 1 of `pairs!`
 --> mistake.rs:2:18
  |
2 |     ($($key:ident: $value:expr),*) => {
  |                  ^

1 error; 0 of 1 call expanded
"""
MENDED_LINE = """\
    let sizes = [(stringify!(width), 2), (stringify!(height), 3)];
"""


def test_readme(program):
    """The file crates/expandm/data/mistake.rs, unchanged and mended. The white space of an expansion doesn't count."""
    found = program.run(["--explain", "mistake.rs"], {"mistake.rs": MISTAKE})
    row = "crates/expandm/data/mistake.rs"
    program.check("explained.MISTAKE", row, (found.status, found.out, found.err), (1, MISTAKE, MISTAKE_EXPLAINED))
    mended = MISTAKE.replace("height 3", "height: 3")
    found = program.run(["mistake.rs"], {"mistake.rs": mended})
    want = mended.replace("    let sizes = pairs!(width: 2, height: 3);\n", MENDED_LINE)
    program.check("explained.MISTAKE", row, (found.status, unspaced(found.out), found.err), (0, unspaced(want), ""))


def unspaced(text):
    return text.replace(" ", "")


def reported(program, words, text):
    """The standard error of a run on the file `a.rs`."""
    return program.run(words.split(), {"a.rs": text}).err


def part(level, message, line, column, width):
    """A diagnostic on so many characters of `TWENTY`, in rustc's form with line numbers of two digits."""
    text = TWENTY.split("\n")[line - 1]
    carets = " " * (column - 1) + "^" * width
    return f"{level}: {message}\n  --> a.rs:{line}:{column}\n   |\n{line:2} | {text}\n   | {carets}\n"


def rule_of_twenty(number):
    """The notes on a rule of `TWENTY`."""
    rule = f"rule {number} of `m!`"
    token, column, stop = ("c", 10, 8) if number == 13 else (f"r{number}", 8, 6)
    stops = part("note", f"{rule} stops here; expected `{token}`", 23, stop, 1)
    return stops + part("note", f"`{token}` in {rule}", number + 1, column, len(token))


def check_closest_first(program):
    """The closest rule is first, and then the others in order. `--explain` shows the first five rules, and `--explain=all` shows all."""
    error = part("error", "no rules expected `d`", 23, 8, 1) + "   |\n"
    notes = [rule_of_twenty(number) for number in CLOSEST_FIRST]
    end = "\n1 error; 0 of 1 call expanded\n"
    cut = "... 150 more lines; `--explain=all` shows them\n"
    program.check("explained.TWENTY", "--explain", reported(program, "--explain a.rs", TWENTY), error + "".join(notes[:5]) + cut + end)
    program.check("explained.TWENTY", "--explain=all", reported(program, "--explain=all a.rs", TWENTY), error + "".join(notes) + end)
    found = [it["message"] for it in objects(reported(program, "--explain --json a.rs", TWENTY))]
    want = [f"rule {number} of `m!` stops here" for number in CLOSEST_FIRST]
    program.check("explained.TWENTY", "--json", ([it.split(";")[0] for it in found[1::2]], len(found)), (want, 41))


def explanation_length(err):
    """The number of lines of the first diagnostic, and the number of lines that it doesn't show."""
    lines = err.partition("\n1 error; ")[0].rstrip("\n").split("\n")
    cut = re.fullmatch(r"\.\.\. ([0-9]+) more lines; `--explain=all` shows them", lines[-1])
    return len(lines), cut and int(cut[1])


def tokens(said):
    """The location and the token of each note on a token."""
    return [note.split(" in the expansion of `m!`")[0] for note in said if " in the expansion of `m!`" in note]


def test(program):
    for row in ROWS:
        rules, call, want = row
        err = reported(program, "--explain=2:1 a.rs", defined(rules, call))
        program.check("explained.ROWS", row, joined(notes(err)), want)
    for row in ORIGINS:
        rules, call, want = row
        err = reported(program, "--origin a.rs", defined(rules, call))
        program.check("explained.ORIGINS", row, joined(tokens(notes_in_lines(err))), want)
    for row in STEPS:
        rules, call, want = row
        err = reported(program, "--trace a.rs", defined(rules, call))
        # The spaces between tokens don't count.
        found = joined(notes_in_lines(err)).replace(" ", "")
        program.check("explained.STEPS", row, found, want.replace(" ", ""))
    for row in REPORTS:
        words, text, want = row
        program.check("explained.REPORTS", row, reported(program, words, text), want)
    for row in NOTES:
        words, text, want = row
        program.check("explained.NOTES", row, joined(notes(reported(program, words, text))), want)
    check_closest_first(program)
    for row in LENGTHS:
        words, text, lines, hidden = row
        program.check("explained.LENGTHS", row, explanation_length(reported(program, words, text)), (lines, hidden))
    test_readme(program)
    for row in OBJECTS:
        words, text, want = row
        found = objects(reported(program, f"--json {words}", text))
        program.check("explained.OBJECTS", row, "".join(shown(report) for report in found), want)
