"""Arguments that are long or deep, and patterns with more readings of them than can be counted."""
from mbex import printed, prints, ran, worked
from programs import spelled

# Every semicolon may end a round of each of the three repetitions.
SEMICOLONS = (
    ("($($($();*);+);*) => {}", "«15 ;»", "unexpected token in input at 1@0..15", 0, ""),
    ("($($($();*);+);*) => {}", "«30 ;»", "unexpected token in input at 1@0..30", 0, ""),
    ("($($($();*);+);*) => {}", "«60 ;»", "unexpected token in input at 1@0..60", 0, ""),
)

# A thousand words, two of which match at any offset, or too many rounds.
ERRORS = (
    (
        "($($a:ident)* $($b:ident)* $($c:ident)* $($d:ident)* $($e:ident)* $($f:ident)* $($g:ident)* "
        "$($h:ident)*) => {}",
        "«999 a »a", "leftover tokens at 1@0..1999", 0, "",
    ),
    (
        "($(a)* $(a)* $(a)* $(a)* $(a)* $(a)* $(a)* $(a)*) => {}", "«999 a »a", "expected ident: `a` at 1@0..1999", 0,
        "",
    ),
    ("($($x:ident)*) => {$($x)*}", "«65535 a »a", "Expand exceed limit at 1@0..131071", 0, ""),
)

# Nested groups are one tree, and the matcher enters the groups of the pattern.
GROUPS = (
    ("($t:tt) => {}", "«10000 (»«10000 )»", "", 0, ""),
    ("($($t:tt)*) => {${count($t)}}", "«10000 (»«10000 )» ()", "", 0, "  LITERAL Integer 2 1@0..20003\n"),
    (
        "«101 (»$($x:ident)*«101 )» => {$($x)*}", "«100 (»b c«100 )»", "", 0,
        "  IDENT   b 1@100..101\n"
        "  IDENT   c 1@102..103\n",
    ),
)

# Patterns as above, and how each reads an argument.
VERDICTS = (
    ("($($($();*);+);*) => {}", "«15 ;»", "several readings"),
    ("($($($();*);+);*) => {}", "«30 ;»", "several readings"),
    ("($($($();*);+);*) => {}", "«60 ;»", "several readings"),
    (
        "($($a:ident)* $($b:ident)* $($c:ident)* $($d:ident)* $($e:ident)* $($f:ident)* $($g:ident)* "
        "$($h:ident)*) => {}",
        "«1000 a »", "ambiguous at 0",
    ),
    ("($(a)* $(a)* $(a)* $(a)* $(a)* $(a)* $(a)* $(a)*) => {}", "«1000 a »", "several readings"),
    ("(«100 (»a«100 )») => {}", "«100 (»a«100 )»", "one reading"),
    ("($t:tt) => {}", "«10000 (»a«10000 )»", "one reading"),
)

# The names of a variable and of the argument, of 100,000 letters each; a name of 200,000 parts; and a rule after a
# thousand that don't match.
LONG = (
    (
        "($«100000 x»:ident) => {${concat(b, $«100000 x»)}}", "«100000 a»", "", 0,
        "  IDENT   b«100000 a» 0@100016..100022\n",
    ),
    ("($($x:ident)*) => {$(${concat(«200000 a,»$x)})*}", "b", "", 0, "  IDENT   «200000 a»b 0@23..29\n"),
    ("«1000 (b) => {};»(a) => {c}", "a", "", 1000, "  IDENT   c 0@10008..10009\n"),
    ("«1000 (b) => {};»(a) => {c}", "c", "unexpected token in input at 1@0..1", 0, ""),
)

# A definition that emits as many words as the argument has, the words, and the file and the byte of the first one.
ROUNDS = (
    ("($($x:ident)*) => {$($x)*}", "«65534 a »a", 65535, 1, 0),
)

# Such a definition: a pattern and a template of 6,000 words each. The template's first word is at byte 1 + 11,999 + 6.
RULE = (
    ("(«5999 a »a) => {«5999 a »a}", "«5999 a »a", 6000, 0, 12006),
)


def words_are_written(program, table, rows):
    for row in rows:
        definition, argument, count, file, first = row
        argument = spelled(argument)
        starts = range(first, first + 2 * count, 2)
        trees = "".join(f"  IDENT   a {file}@{start}..{start + 1}\n" for start in starts)
        prints(program, table, row, ran(program, spelled(definition), argument), printed(argument, "", 0, trees))


def have_verdicts(program):
    for row in VERDICTS:
        definition, argument, verdict = row
        run = ran(program, spelled(definition), spelled(argument), lint=True)
        prints(program, "VERDICTS", row, run, (0, f"rule 0: {verdict}\n"))


def test(program):
    have_verdicts(program)
    worked(program, "SEMICOLONS", SEMICOLONS)
    worked(program, "ERRORS", ERRORS)
    worked(program, "GROUPS", GROUPS)
    worked(program, "LONG", LONG)
    words_are_written(program, "ROUNDS", ROUNDS)
    words_are_written(program, "RULE", RULE)
