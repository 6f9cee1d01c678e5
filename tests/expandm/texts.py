"""The expansion of a file's text."""
from expandm import counted

M = "macro_rules! m { () => { m!(1) }; (1) => { 1 } }\n"


def grouped(count, text):
    """A text in so many groups."""
    return "(" * count + text + ")" * count


# The text after the definition of `m`, the arguments that limit the depth of calls, the expansion, and the number of notes.
ROWS = (
    ("", "--depth 9 a.rs", "", 0),
    ("f(m);  // m!()", "--depth 9 a.rs", "f(m);  // m!()", 0),
    ("x = m!();", "--depth 9 a.rs", "x = 1;", 0),
    ("x = m!();", "--depth 1 a.rs", "x = m!(1);", 0),
    ("x = m!() ; y = m![1]", "--depth 9 a.rs", "x = 1 ; y = 1", 0),
    ("x = m!(2);", "--depth 9 a.rs", "x = m!(2);", 3),
    ("x = n!(m!());", "--depth 9 a.rs", "x = n!(m!());", 0),
    ("x = vec![m!(), 2];", "--depth 9 a.rs", "x = vec![1, 2];", 0),
    ("x = a::m!();", "--depth 9 a.rs", "x = a::m!();", 0),
    ("{ macro_rules! n { () => { 2 } } n!() } n!()", "--depth 9 a.rs", "{ macro_rules! n { () => { 2 } } 2 } n!()", 2),
    ("macro_rules! d { () => { d!() } } d!()", "--depth 3 a.rs", "macro_rules! d { () => { d!() } } d!()", 3),
    ('"', "--depth 9 a.rs", '"', 1),
    # Groups and calls count together: a call in 1,000 of them is unchanged.
    (grouped(998, "m!()"), "--depth 9 a.rs", grouped(998, "1"), 0),
    (grouped(999, "m!()"), "--depth 9 a.rs", grouped(999, "m!(1)"), 2),
    (grouped(1_000, "m!()"), "--depth 9 a.rs", grouped(1_000, "m!()"), 1),
    (grouped(1_200, "m!() + n!()"), "--depth 9 a.rs", grouped(1_200, "m!() + n!()"), 1),
    (grouped(1_200, "n!() + m != 1"), "--depth 9 a.rs", grouped(1_200, "n!() + m != 1"), 0),
)


def test(program):
    for row in ROWS:
        rest, words, want, count = row
        ran, found = counted(program, words.split(), {"a.rs": M + rest})
        program.check("texts.ROWS", row, (ran.out, found), (M + want, count))
