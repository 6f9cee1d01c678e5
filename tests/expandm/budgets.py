"""The limits of calls and of tokens. A call of the file whose expansion exceeds a limit is unchanged, and has one error. Every other call
is expanded. A token of an expansion counts once; the openings and closings of its groups count too."""
import re

# Macros whose expansions have four tokens, one, nine and then two of the last, and the tokens of the argument.
MACROS = (
    "macro_rules! four { () => { f(a) } } macro_rules! one { () => { 1 } } macro_rules! twice { () => { one!() + one!() } } "
    "macro_rules! pass { ($($t:tt)*) => { $($t)* } }\n"
)

MANIFEST = '[package]\nname = "p"\nversion = "0.1.0"\nedition = "2021"\n'

# Arguments; calls in brackets; their expansions; and the errors: at which call, and which limit.
ROWS = (
    ("--max-tokens 4", "four!()", "f(a)", []),
    ("--max-tokens 3", "four!()", "four!()", [(1, "3 tokens")]),
    ("--max-tokens 8", "four!(), four!(), four!(), one!()", "f(a), f(a), four!(), one!()", [(3, "8 tokens"), (4, "8 tokens")]),
    ("--max-tokens 9", "four!(), four!(), four!(), one!()", "f(a), f(a), four!(), 1", [(3, "9 tokens")]),
    ("--max-tokens 11", "twice!()", "1 + 1", []),
    ("--max-tokens 10", "twice!(), one!()", "twice!(), 1", [(1, "10 tokens")]),
    ("--max-tokens 8", "twice!(), one!()", "twice!(), 1", [(1, "8 tokens")]),
    ("--max-tokens 0", "one!(), one!()", "one!(), one!()", [(1, "0 tokens"), (2, "0 tokens")]),
    ("--max-tokens 6", "pass!((a[b])), pass!(x)", "(a[b]), pass!(x)", [(2, "6 tokens")]),
    ("--fuel 3", "twice!(), one!()", "1 + 1, one!()", [(2, "3 calls")]),
    ("--fuel 2", "twice!(), one!(), one!(), one!()", "twice!(), 1, 1, one!()", [(1, "2 calls"), (4, "2 calls")]),
    ("--fuel 0", "one!()", "one!()", [(1, "0 calls")]),
    ("--fuel 2 --max-tokens 3", "four!(), one!(), one!(), one!()", "four!(), 1, 1, one!()", [(1, "3 tokens"), (4, "2 calls")]),
    # Calls of unknown macros use nothing of the limits.
    ("--fuel 1", "other!(), other!(), one!()", "other!(), other!(), 1", []),
)

# Macros that double themselves, each with the call that does it: without a limit, no run of them would end. With 100,000 tokens, no
# repetition has more rounds than the expander takes, which is 65,536.
DOUBLING = (
    "macro_rules! m { (0) => { a }; (1 $($t:tt)*) => { m!($($t)*); m!($($t)*); } }|m!(" + "1 " * 60 + "0);",
    "macro_rules! m { ($($t:tt)*) => { m!($($t)* $($t)*); m!($($t)*); } }|m!(x x);",
    "macro_rules! m { ($n:expr) => { if $n > 0 { m!($n - 1) } else { m!($n - 2) } } }|m!(1);",
    "macro_rules! m { ($($t:tt)*) => { $($t)* m!($($t)* $($t)*); } }|m!(x x);",
    "macro_rules! m { () => { n!(); n!(); } } macro_rules! n { () => { m!(); m!(); } }|m!();",
)

# The seconds of a processor that such a run may take on a slow machine.
SECONDS = 20


def errors(err):
    """The column and the message of each error in line 2 of a.rs or src/lib.rs, and any other error as it is."""
    found = [line for line in err.splitlines() if ": error: " in line]
    return [re.sub(r"^(?:a|src/lib)\.rs:2:([0-9]+): error: ", r"\1: ", line) for line in found]


def at_calls(calls, expected):
    """The errors of a row as they are printed: the column and the message."""
    found = list(re.finditer(r"(\w+!)\(", f"x = [{calls}];"))
    return [f"{found[number - 1].start() + 1}: limit of {limit} reached while expanding `{found[number - 1][1]}`" for number, limit in expected]


def check_row(program, row):
    """The limits hold for a file, and for the library of a package."""
    words, calls, want, expected = row
    text = f"{MACROS}x = [{calls}];"
    alone = program.run([*words.split(), "a.rs"], {"a.rs": text})
    packed = program.run(words.split(), {"Cargo.toml": MANIFEST, "src/lib.rs": text})
    for ran in alone, packed:
        got = (ran.status, ran.out.removeprefix(MACROS), errors(ran.err))
        program.check("budgets.ROWS", row, got, (int(bool(expected)), f"x = [{want}];", at_calls(calls, expected)))


def check_doubling(program, row):
    """The call is unchanged, an error is at it, what stands after it is expanded, and the run ends in time."""
    macros, call = row.split("|")
    text = f"{macros} macro_rules! one {{ () => {{ 1 }} }}\n{call} x = one!();"
    ran = program.run(["--max-tokens", "100000", "a.rs"], {"a.rs": text})
    at_call = [line for line in errors(ran.err) if re.match("1: limit of [0-9]+ (calls|tokens) reached while expanding `m!`$", line)]
    got = (ran.status, ran.out, len(at_call), ran.seconds < SECONDS)
    program.check("budgets.DOUBLING", row, got, (1, text.replace("x = one!()", "x = 1"), 1, True))


def test(program):
    for row in ROWS:
        check_row(program, row)
    for row in DOUBLING:
        check_doubling(program, row)
