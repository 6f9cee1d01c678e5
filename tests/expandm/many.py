"""Runs with many reports: each one is written, in every form of reports."""
from collections import Counter

from expandm import objects

# The number of failing calls in a text, of rules in a macro, and of definitions with a report. With a stack of the usual size, no run must
# end early.
MANY = 50_000

# Texts by their names. In `unreached`, rule 1 matches everything that the other rules do. There are fewer of them, because each is compared
# with the rules before it.
TEXTS = {
    "calls": "macro_rules! m { (a) => {} }\n" + "m!(b);\n" * MANY,
    "rules": "macro_rules! m {\n" + "(a) => {};\n" * MANY + "}\nm!(b);\n",
    "definitions": "macro_rules! m { ($a:ident) => { a } }\n" * MANY,
    "unreached": "macro_rules! m {\n" + "(a) => {};\n" * 10_000 + "}\n",
}

# The name of a text, the arguments, and the number of reports of each level. If no rule matches a call, two notes are on the closest
# rule and the definition. With `--explain=all`, each rule has a note where it stops, and a note at what it expects. With `--explain`, there
# are as many as fit into 60 lines: the error takes five, the line after it one, and each note five. A help follows the warning of an unused
# variable, as in rustc.
ROWS = (
    ("calls", "", {"error": MANY, "note": 2 * MANY}),
    ("calls", "--json", {"error": MANY, "note": 2 * MANY}),
    ("calls", "--explain", {"error": MANY, "note": 2 * MANY}),
    ("rules", "--explain=all", {"error": 1, "note": 2 * MANY}),
    ("rules", "--explain --json", {"error": 1, "note": 2 * MANY}),
    ("rules", "--explain", {"error": 1, "note": 10}),
    ("definitions", "--lint", {"warning": MANY, "help": MANY}),
    ("definitions", "--lint --json", {"warning": MANY, "help": MANY}),
    ("unreached", "--lint", {"warning": 9_999, "note": 9_999}),
)


def level(line):
    """The level of a report that begins in a line: in the form of rustc, or with its location before it."""
    front = line.split(": ", 2)
    return front[1] if front[0].startswith("a.rs:") else front[0]


def levels(words, err):
    """How many reports of each level there are."""
    if "--json" in words:
        return Counter(it["level"] for it in objects(err))
    return Counter(it for it in map(level, err.splitlines()) if it in ("error", "warning", "note", "help"))


def test(program):
    for row in ROWS:
        text, words, want = row
        ran = program.run([*words.split(), "a.rs"], {"a.rs": TEXTS[text]})
        program.check("many.ROWS", row, (ran.status, dict(levels(words, ran.err))), (1, want))
