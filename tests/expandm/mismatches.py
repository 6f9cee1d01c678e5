"""Calls that no rule matches: the message and its location, and the pattern of the closest rule, as rustc 1.95 prints them. `expandm`
adds the name of the macro, and the number of the rule.
"""
from expandm import defined, objects

# Rules; an argument with `§` before the token at fault, or at the end where that is the closing; rustc's message.
ROWS = (
    # The furthest token that a rule reaches.
    ("(a b c) => {}; (a d) => {}", "a b §e", "no rules expected `e`"),
    ("(a d) => {}; (a b c) => {}", "a b §e", "no rules expected `e`"),
    ("($x:ident $y:ident) => {}; ($x:ident) => {}", "a §1", "no rules expected `1`"),
    ("($x:ident) => {}; (a b) => {}", "a b §c", "no rules expected `c`"),
    ("(a) => {}", "a §a", "no rules expected `a`"),
    ("($($x:ident),*) => {}", "a, b §c", "no rules expected `c`"),
    ("($e:expr, b) => {}", "1 + 2§; b", "no rules expected `;`"),
    ("($e:expr) => {}", "§+", "no rules expected `+`"),
    ("($l:literal) => {}", "§x", "no rules expected `x`"),
    ("(#[$m:meta]) => {}", "#[a] §b", "no rules expected `b`"),
    # Tokens of each kind.
    ("(a) => {}", '§"s"', 'no rules expected `"s"`'),
    ("(a) => {}", "§1u8", "no rules expected `1u8`"),
    ("(a) => {}", "§r#fn", "no rules expected `r#fn`"),
    ("(a) => {}", "§'x", "no rules expected `'x`"),
    ("(a => b) => {}", "a §-> b", "no rules expected `->`"),
    ("(a..=b) => {}", "a§..b", "no rules expected `..`"),
    ("(a) => {}", "§<<= b", "no rules expected `<<=`"),
    # Groups: an opening, a closing, and a token inside.
    ("(a) => {}", "§(a)", "no rules expected `(`"),
    ("(a [b c]) => {}", "a [b§]", "no rules expected `]`"),
    ("(a {b}) => {}", "a {§}", "no rules expected `}`"),
    ("([a]) => {}", "[§b]", "no rules expected `b`"),
    ("(a [b [c] d] e) => {}", "a [b [c] §f] e", "no rules expected `f`"),
    # The end of the call.
    ("(a b) => {}", "a§", "unexpected end of macro invocation"),
    ("($i:ident, $($j:ident),+) => {}", "a,§", "unexpected end of macro invocation"),
    # Several readings, also of a later rule.
    ("($(a)? $(a)?) => {}", "§a", "ambiguity: multiple successful parses"),
    ("(a b) => {}; ($(a)? $(a)?) => {}", "§a", "ambiguity: multiple successful parses"),
)

# Rules, and an argument with `§` as above, on which rustc says "local ambiguity when calling macro `m`: multiple parsing options", and lists them.
AMBIGUOUS = (
    ("($($a:ident)* $b:ident) => {}", "§x y"),
    ("(a $($x:ident)* as) => {}", "a b §as"),
    ("(a b) => {}; ($($a:ident)* $b:ident) => {}", "§a"),
)

# Rules with `§` before the part that rustc's note "while trying to match" is at; an argument; what the note names; the number of the rule.
CLOSEST = (
    ("([§a]) => {}; (a b) => {}; ($x:ident c) => {}", "[b]", "`a`", 1),
    ("([a]) => {}; (a §b) => {}; ($x:ident c) => {}", "a d", "`b`", 2),
    ("(§[a]) => {}; (a b) => {}; ($x:ident c) => {}", "1", "`[`", 1),
    ("($($k:ident §=> $v:expr),* $(,)?) => {}", "a = 1", "`=>`", 1),
    ("($x:literal) => {}; ($x:ident §$y:literal) => {}", "a b", "meta-variable `$y:literal`", 2),
    ("(§$x:ty) => {}", "1", "meta-variable `$x:ty`", 1),
    ("(§a) => {}", "", "`a`", 1),
)

# Rules; an argument; and all that the rule expects at the token at fault. rustc names one of them.
SEVERAL = (
    ("($($x:expr),*; $y:ty) => {}", "1 u8", "`,` or `;`"),
    ("($(a)? $(b)? c) => {}", "d", "`a`, `b` or `c`"),
    ("($(a)? $x:literal) => {}", "d", "`a` or meta-variable `$x:literal`"),
)

# Rules; without an argument, rustc marks the call from its name on.
EMPTY = ("(a) => {}", "($t:tt) => {}", "(a) => {}; (b c) => {}")


def place_and_message(program, rules, argument):
    """Line, column and message of the one error of a call in the second line."""
    return [it for it in reports_of(program, rules, argument) if it[2] == "error"]


def reports_of(program, rules, argument):
    """Line, column, level and message of each report on a call in the second line."""
    err = program.run(["--json", "a.rs"], {"a.rs": defined(f"m {{ {rules} }}", f"m!({argument});")}).err
    return [(it["spans"][0]["line_start"], it["spans"][0]["column_start"], it["level"], it["message"]) for it in objects(err)]


def check_closest(program, row):
    """What the closest rule was to match, and where the macro is defined, after the error."""
    rules, argument, expected, number = row
    column = len("macro_rules! m { ") + rules.index("§") + 1
    want = [
        (1, column, "note", f"while trying to match {expected} in rule {number} of `m!`"),
        (1, len("macro_rules! ") + 1, "note", "when calling this macro"),
    ]
    program.check("mismatches.CLOSEST", row, reports_of(program, rules.replace("§", ""), argument)[1:], want)


def check_several(program, row):
    rules, argument, expected = row
    found = [it[3] for it in reports_of(program, rules, argument)[1:2]]
    program.check("mismatches.SEVERAL", row, found, [f"while trying to match {expected} in rule 1 of `m!`"])


def check_place(program, row, rules, argument, message):
    column = len("m!(") + argument.index("§") + 1
    found = place_and_message(program, rules, argument.replace("§", ""))
    program.check("mismatches", row, found, [(2, column, "error", message)])


def test(program):
    for row in ROWS:
        rules, argument, message = row
        check_place(program, row, rules, argument, message)
    for row in AMBIGUOUS:
        rules, argument = row
        check_place(program, row, rules, argument, "local ambiguity when calling macro `m`: multiple parsing options")
    for row in CLOSEST:
        check_closest(program, row)
    for row in SEVERAL:
        check_several(program, row)
    for rules in EMPTY:
        found = place_and_message(program, rules, "")
        message = "unexpected end of macro invocation"
        program.check("mismatches.EMPTY", rules, found, [(2, 1, "error", message)])
