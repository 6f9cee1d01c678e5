"""The locations at which definitions are refused, by the reports of `--lint`: the token after `§`. The `§` is no part of the text. If no
token follows it, the location is the closing.
"""
from expandm import objects

EMPTY_REPETITION = "repetition matches empty token tree"

# Rules that `;` separates, with the location of the fault; the message.
FAULTS = (
    # The trees of a rule.
    ("§a", "expected subtree"),
    ("() §", "expected `=`"),
    ("(a b) §{}", "expected `=`"),
    ("() = §a", "expected `>`"),
    ("() => §a", "expected subtree"),
    ("() => §", "expected subtree"),
    ("attr §a", "expected `()`"),
    ("unsafe derive §", "expected `()`"),
    ("unsafe attr() §a", "expected subtree"),
    ("unsafe () §", "expected `=`"),
    # Between rules.
    ("() => {} §()", "expected `;`"),
    ("() => {}§, () => {}", "expected `;`"),
    ("() => {}; §a", "expected subtree"),
    # Patterns.
    ("(§$x) => {}", "missing fragment specifier"),
    ("(a §$x:) => {}", "missing fragment specifier"),
    ("(a [b §$x]) => {}", "missing fragment specifier"),
    ("($(a §$b)*) => {}", "missing fragment specifier"),
    ("($(a),* $(b §$c)+) => {}", "missing fragment specifier"),
    ("(..= 1 §$x) => {}", "missing fragment specifier"),
    ("($x:tt (a) §$y) => {}", "missing fragment specifier"),
    ("(§$(a) b) => {}", "expected one of: `*`, `+`, or `?`"),
    ("(x §$(a $b);;;;*) => {}", "expected one of: `*`, `+`, or `?`"),
    ("(§$$) => {}", "`$$` is not allowed on the pattern side"),
    ("(§${len()}) => {}", "`${}` metavariable expressions are not allowed in matchers"),
    ("(§$[a]) => {}", "expected `$()` repetition or `${}` expression"),
    ("(a b §$+) => {}", "expected ident"),
    # Templates, and a later rule.
    ("() => {§${foo()}}", "invalid metavariable expression"),
    ("attr(a) ($x:ident) => {${len()} $(b §$1)*}", "expected ident"),
    ("() => {}; ($x:tt) => {$$}; (b §$y) => {}", "missing fragment specifier"),
)

# A repetition without a separator that can match nothing, and the location of its group, as in rustc 1.95.
EMPTY = (
    "($§()*) => {}",
    "(a $§($x:vis)*) => {}",
    "($§($()*)*) => {}",
    "($§($(a)?)+) => {}",
    "($($§()* a)*) => {}",
    "([b $§()+]) => {}",
    "() => {}; ($x:ident $§()*) => {}",
    "($§()*) => {}; ($x) => {}",
    "($§()*) => {}; ($($y:vis)*) => {}",
    "unsafe attr(a) ($(),* $§()*) => {}",
)

# Rules without a fault.
READ = (
    "() => {}",
    "() => {};",
    "($x:vis $(),* $($x:vis a)*) => {$()*}",
    "unsafe attr(a) ($x:ident $($y:tt),*) => {$crate $x $($y)-* ${count($y)}}",
    "derive() ($) => {$}; ($true:tt) => {$true}",
    "(a [$(($x:ty)) , +]) => {..= $( $x )'a?}; (..=) => {}",
)

# The arguments and the body of a `macro`, with the fault and its location, if there is one.
PARTS = (
    ("$x:tt, §$y", "$x", "missing fragment specifier"),
    ("$x:tt", "a {$x §$-}", "expected ident"),
    ("§$$", "${x}", "`$$` is not allowed on the pattern side"),
    ("a $§()*", "a", "repetition matches empty token tree"),
    ("$x:tt", "$x", ""),
)

# Rules of a `macro`, which `,` may separate too.
BETWEEN = "() => {}, () => {} §a"

REFUSED = "invalid-definition"


def found(program, text):
    """Each refusal of a definition: the message, and the byte where it is."""
    ran = program.run(["--edition", "2024", "--lint", "--json", "a.rs"], {"a.rs": text})
    refusals = [it for it in objects(ran.err) if it["code"] and it["code"]["code"] == REFUSED]
    return [(it["message"], it["spans"][0]["byte_start"]) for it in refusals]


def check_refused(program, table, text, message):
    """The definition is refused with this message alone. Without a message, it isn't refused."""
    before, _, after = text.partition("§")
    at = len(before.encode()) + len(after) - len(after.lstrip())
    program.check(table, text, found(program, text.replace("§", "")), [(message, at)] if message else [])


def test(program):
    for text, message in FAULTS:
        check_refused(program, "refused.FAULTS", f"macro_rules! m {{ {text} }}", message)
    for text in EMPTY:
        check_refused(program, "refused.EMPTY", f"macro_rules! m {{ {text} }}", EMPTY_REPETITION)
    for text in READ:
        check_refused(program, "refused.READ", f"macro_rules! m {{ {text} }}", "")
    for arguments, body, message in PARTS:
        check_refused(program, "refused.PARTS", f"macro m({arguments}) {{{body}}}", message)
    message = "expected `;` or `,` to delimit rules"
    check_refused(program, "refused.BETWEEN", f"macro m {{ {BETWEEN} }}", message)
