"""The calls that docs/MACROS.md shows: errors with their locations, and calls for which rustc differs."""
from mbex import ran, worked

# Rules, an argument, and the error with its span.
ERRORS = (
    ("(a b) => {}", "a c", "unexpected token in input at 1@2..3"),
    ("(a b) => {}", "a", "expected ident: `b` at 1@0..1"),
    ("(a (b)) => {}", "a ()", "expected ident: `b` at 1@0..4"),
    ("(a +) => {}", "a -", "expected punct: `+` at 1@2..3"),
    ("($x:ident) => {}", "1", "expected ident at 1@0..1"),
    ("($x:ty) => {}", "+", "expected Ty at 1@0..1"),
    ("(a) => {}", "a b", "leftover tokens at 1@0..3"),
    (
        "($($t:ident),* as $ty:ident) => {}",
        "as u32",
        "leftover tokens at 1@0..6",
    ),
    (
        "($($x:ident)*) => {$x}",
        "a b",
        "expected simple binding, found nested binding `x` at 0@20..21",
    ),
    (
        "() => {${ignore($x)}}",
        "",
        "could not find binding x at 0@17..18",
    ),
    (
        "($x:ident) => {$($x)*}",
        "a",
        "Expand exceed limit at 1@0..1",
    ),
)

# Calls for which rustc differs; tools/rustc/documented.py runs them on rustc.
BESIDE_RUSTC = (
    ("($($l:lifetime)? 'a) => {X}", "'b 'a", "leftover tokens at 1@0..5", 0, "  IDENT   X 0@25..26\n"),
    ("(1) => {X}", '"1"', "", 0, "  IDENT   X 0@8..9\n"),
    ("(foo) => {X}", "r#foo", "", 0, "  IDENT   X 0@10..11\n"),
    (
        "($($a:ident)*; $($b:ident)*) => {$($a $b)*}", "x y; z", "", 0,
        "  IDENT   x 1@0..1\n"
        "  IDENT   z 1@5..6\n",
    ),
    ("($e:expr) => {X}; (1 +) => {Y}", "1 +", "", 1, "  IDENT   Y 0@28..29\n"),
    ("($t:ty $i:ident) => {$i}", "u8 x", "", 0, "  IDENT   x 1@3..4\n"),
    ("($x:ident $x:ident) => {$x}", "a b", "", 0, "  IDENT   b 1@2..3\n"),
    ("($x:foo) => {X}; (a) => {Y}", "a", "", 1, "  IDENT   Y 0@25..26\n"),
    (
        "($($x:ident)*) => {$(&$x)&*}", "a b", "", 0,
        "  PUNCH   & [joint] 0@21..22\n"
        "  IDENT   a 1@0..1\n"
        "  PUNCH   & [joint] 0@25..26\n"
        "  PUNCH   & [joint] 0@21..22\n"
        "  IDENT   b 1@2..3\n",
    ),
)


def test(program):
    for row in ERRORS:
        definition, argument, error = row
        run = ran(program, definition, argument)
        lines = run.out.splitlines()[:2]
        program.check("ERRORS", row, (run.status, lines, run.err), (1, [f"error: {error}", "arm 0"], ""))
    worked(program, "BESIDE_RUSTC", BESIDE_RUSTC)
