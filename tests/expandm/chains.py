"""The calls that led to an error in an expansion, and the line that ends a run. The calls and their numbers are those that rustc 1.95 has
with `-Z macro-backtrace`, where it calls each `in this macro invocation`.
"""
from expandm import objects

PAIR = "macro_rules! pair { ($a:expr, $b:expr) => { ($a, $b) }; }\n"
DOWN = "macro_rules! down {\n    (0) => { pair!(1) };\n    ($h:tt $($t:tt)*) => { down!($($t)*) };\n}\n"
STEPS = "macro_rules! a0 { ($x:expr) => { a1!($x) }; }\nmacro_rules! a1 { ($x:expr) => { a2!($x) }; }\n"
EVEN = "macro_rules! even { ($a:tt $($t:tt)*) => { odd!($($t)*) }; () => { end!() }; }\n"
ODD = "macro_rules! odd { ($a:tt $($t:tt)*) => { even!($($t)*) }; () => { end!() }; }\nmacro_rules! end { (a) => {}; }\n"
FOREVER = "macro_rules! forever { ($x:expr) => { forever!($x) }; }\n"
TWO = PAIR + "macro_rules! two { () => { (pair!(1, 2), pair!(3, 4)) } }\n"
FOUR = "macro_rules! four { () => { f(a) } }\n"
DOUBLE = "macro_rules! double { ($($t:tt)*) => { double!($($t)* $($t)*) } }\n"
THERE = "in this macro invocation"

# A text; the location of its error; and the locations of the calls that led there, from the file's call on.
ROWS = (
    # No call led to an error of the file's own call.
    (PAIR + "fn main() { pair!(1); }", "2:20", ""),
    (PAIR + "macro_rules! outer { () => { pair!() }; }\nfn main() { outer!(); }", "2:30", "3:13"),
    (STEPS + "macro_rules! a2 { ($x:expr) => { end!() }; }\n" + ODD + "fn main() { a0!(1); }", "3:34", "6:13 1:34 2:34"),
    # The error is at a token of the file.
    (PAIR + "macro_rules! outer { ($($x:tt)*) => { pair!($($x)*) }; }\nfn main() { outer!(1; 2); }", "3:21", "3:13"),
    # A recursion has one note for each location.
    (PAIR + DOWN + "fn main() { down!(1 2 3 4 5 6 7 8 9 10 11 12 13 14 15 16 17 18 19 +); }", "4:28", "6:13 4:28"),
    (EVEN + ODD + "fn main() { even!(1 2 3 4 5 6 7); }", "2:68", "4:13 2:43 1:44"),
    (FOREVER + "fn main() { forever!(1); }", "1:39", "2:13 1:39"),
    # An unchanged call of the standard library has no number.
    (PAIR + "macro_rules! outer { () => { vec![pair!()] }; }\nfn main() { outer!(); }", "2:35", "3:13"),
)

# How many macros there are; the calls that have notes; and the text on the middle calls. Each macro calls the next one, and the last one
# matches nothing.
LONG = (
    (8, ["1", "2", "3", "4", "5", "6", "7", "8"], ""),
    (9, ["1", "2", "3", "4", "6", "7", "8", "9"], ", and 1 more that are not shown"),
    (100, ["1", "2", "3", "4", "97", "98", "99", "100"], ", and 92 more that are not shown"),
)

# Arguments; a text; the line that ends the run, or `None` without an error or a warning.
ENDS = (
    ("", PAIR + "const A: (u8, u8) = pair!(1, 2);", None),
    ("", PAIR + "const A: (u8, u8) = pair!(1);", "1 error; 0 of 1 call expanded"),
    ("", PAIR + "fn f() { pair!(1, 2); pair!(1); pair!(2); }", "2 errors; 1 of 3 calls expanded"),
    # Calls in expansions count; calls of the standard library's macros don't.
    ("", PAIR + "macro_rules! two { () => { pair!(1, 2); pair!() } }\nfn f() { two!(); println!(); std::dbg!(); }", "1 error; 2 of 3 calls expanded"),
    ("", PAIR + "fn f() { pair!(1); quote!(a); }", "1 error; 0 of 1 call expanded; 1 call of an unknown macro"),
    ("", PAIR + "fn f() { pair!(1); quote!(a); other::m!(); }", "1 error; 0 of 1 call expanded; 2 calls of unknown macros"),
    # A call that is out of scope counts as not expanded.
    ("", "fn f() { pair!(1, 2); }\n" + PAIR + "fn g() { pair!(1); }", "1 error; 0 of 2 calls expanded"),
    ("", "fn f() { quote!(a); }", None),
    ("", "fn f(", "1 error"),
    # Calls in expansions that `--once` leaves don't count.
    ("--once", PAIR + "macro_rules! two { () => { pair!() } }\nfn f() { two!(); pair!(); }", "1 error; 1 of 2 calls expanded"),
    ("--fuel 1", PAIR + "fn f() { pair!(1, 2); pair!(3, 4); }", "1 error; 1 of 2 calls expanded"),
    # A call beyond a limit isn't expanded, and the calls in its expansion don't count.
    ("--fuel 2", TWO + "fn f() { two!(); pair!(5, 6); }", "1 error; 1 of 2 calls expanded"),
    ("--max-tokens 4", FOUR + "fn f() { four!(); four!(); }", "1 error; 1 of 2 calls expanded"),
    ("--max-tokens 3", FOUR + "fn f() { four!(); }", "1 error; 0 of 1 call expanded"),
    ("--max-tokens 1000", DOUBLE + "fn f() { double!(x); }", "1 error; 0 of 1 call expanded"),
    ("--max-tokens 1000", DOUBLE + PAIR + "fn f() { pair!(1, 2); double!(x); pair!(3, 4); quote!(a); }",
     "1 error; 2 of 3 calls expanded; 1 call of an unknown macro"),
    ("--explain", PAIR + "fn f() { pair!(1); }", "1 error; 0 of 1 call expanded"),
    ("--json", PAIR + "fn f() { pair!(1); }", None),
    ("--lint", "macro_rules! m { ($x:ident) => { x }; }", "1 warning"),
    ("--lint", "macro_rules! m { ($x:exp) => {}; }", "1 error"),
    ("--lint", "macro_rules! m { ($x:exp) => {}; }\nmacro_rules! n { ($x:ident) => { x }; }", "1 error, 1 warning"),
    ("--lint --json", "macro_rules! m { ($x:ident) => { x }; }", None),
    ("--lint", PAIR, None),
)


def place(report):
    (at,) = report["spans"]
    return f"{at['line_start']}:{at['column_start']}"


def chain(program, text):
    """The locations of the errors, and the location and the message of each note on a call that led there."""
    reports = objects(program.run(["--json", "a.rs"], {"a.rs": text}).err)
    errors = [place(it) for it in reports if it["level"] == "error"]
    return errors, [(place(it), it["message"]) for it in reports if THERE in it["message"]]


def numbered(places):
    """The message at each of these calls."""
    if len(places) == 1:
        return [(places[0], THERE)]
    return [(at, f"{THERE} (#{number})") for number, at in enumerate(places, 1)]


def check_long(program, row):
    count, numbers, hidden = row
    steps = "".join(f"macro_rules! a{i} {{ () => {{ a{i + 1}!() }}; }}\n" for i in range(count))
    text = f"{steps}macro_rules! a{count} {{ (b) => {{}}; }}\nfn main() {{ a0!(); }}"
    _, got = chain(program, text)
    want = [f"{THERE} (#{number})" for number in numbers]
    want[3] += hidden
    program.check("chains.LONG", row, [message for _, message in got], want)


def check_end(program, row):
    """The last line of standard error is the line of the row, or a line of a report."""
    words, text, want = row
    lines = program.run([*words.split(), "a.rs"], {"a.rs": text}).err.splitlines()
    ends = [line for line in lines if "call" in line and "expanded" in line or line[:2] in ("1 ", "2 ") and "|" not in line]
    program.check("chains.ENDS", row, (ends, lines[-1:] == ends), ([want], True) if want else ([], not lines))


def check_forms(program):
    """The calls are in each form of the reports."""
    text = PAIR + "macro_rules! outer { () => { pair!() }; }\nfn main() { outer!(); }"
    short = program.run(["a.rs"], {"a.rs": text}).err
    program.check("chains.forms", "short", f"a.rs:3:13: note: {THERE}\n    3 | fn main() {{ outer!(); }}\n" in short, True)
    human = program.run(["--explain", "a.rs"], {"a.rs": text}).err
    want = f"note: {THERE}\n --> a.rs:3:13\n  |\n3 | fn main() {{ outer!(); }}\n  |             ^^^^^^^^\n"
    program.check("chains.forms", "human", want in human, True)


def test(program):
    for row in ROWS:
        text, at, calls = row
        program.check("chains.ROWS", row, chain(program, text), ([at], numbered(calls.split())))
    for row in LONG:
        check_long(program, row)
    for row in ENDS:
        check_end(program, row)
    check_forms(program)
