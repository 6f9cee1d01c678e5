"""How runs end: their statuses, their lines on standard error, and the meaning of their arguments."""
import tempfile

from mbex import ARG, DEF, ran
from programs import write

# A definition and an argument, the status, and the line on standard error.
FAILURES = (
    ("() => {}", "", 0, ""),
    ("(a) => {}", "", 1, ""),
    ("() => {} x", "", 2, "definition refused: expected `;`"),
    ("($x:ident) =>", "", 2, "definition refused: expected subtree"),
    ("($(a) => {}", "", 2, "definition refused: expected `=`"),
    ("($( $($v:vis),+ )*) => {}", "", 2, "definition refused: empty token tree in repetition"),
    ("() => {} x", "'", 4, "cannot lex the.arg at 0"),
    ("(a ` b) => {}", "'", 4, "cannot lex the.def at 3"),
    ("", 'é "', 4, "cannot lex the.arg at 3"),
)

# Arguments, whether they ask for a lint, and the edition; or "usage" if they are invalid.
WORDS = (
    ("", "usage"),
    ("d", "usage"),
    ("d a", False, 2024),
    ("d a 2015", False, 2015),
    ("d a 2018", False, 2018),
    ("d a 2021", False, 2021),
    ("d a 2024", False, 2024),
    ("d a 2022", "usage"),
    ("d a 2018 x", "usage"),
    ("--lint", "usage"),
    ("--lint d", "usage"),
    ("--lint d a", True, 2024),
    ("--lint d a 2015", True, 2015),
    ("--lint d a 2022", "usage"),
    ("--lint d a 2018 x", "usage"),
)

# A definition whose rules tell the editions apart: `pat` matches a `|` from 2021 on, and `expr` matches `_` from 2024
# on. The fragments of 2015 are the same as in 2018. The list has the first rule that matches in each edition.
BY_EDITION = "($p:pat, $e:expr) => {}; ($p:pat, _) => {}; ($($t:tt)*) => {}"
ALTERNATIVES = "a | b, _"
FIRST_RULE = {2015: 2, 2018: 2, 2021: 1, 2024: 0}

USAGE = "usage: mbex [--lint] DEF-FILE ARG-FILE [EDITION]\n"

# Arguments, the status, and the line on standard error. No text is at fault here.
LINES = (
    ("", 3, "usage: mbex [--lint] DEF-FILE ARG-FILE [EDITION]"),
    ("a.b a", 3, "cannot read a.b"),
)

# The arguments, and the status. The file `empty` is empty. The program's own file isn't UTF-8.
FILES = (
    ("/no/such/file empty", 3),
    ("empty /no/such/file", 3),
    ("/proc/self/exe empty", 3),
    ("empty empty", 1),
    ("--lint empty", 3),
    ("--lint empty empty", 0),
)

# A definition and an argument. Each prefix of one, with the whole of the other, is run.
TEXTS = (
    ("($x:ident = $t:tt;) => { pair ($t) $x }", "a = 1;"),
    (
        "\n"
        "( struct $ident:ident ) => {\n"
        "    struct $ident {\n"
        "        map: ::std::collections::HashSet<()>,\n"
        "    }\n"
        "};\n",
        "\nstruct MyTraitMap2\n",
    ),
    ('(é "a\\"b"s) => {r#c /* d */}', 'é "a\\"b"s'),
)


def failures(program):
    """A run ends with that status and line, and writes something only where there is an expansion."""
    for row in FAILURES:
        definition, argument, status, line = row
        run = ran(program, definition, argument)
        want = (status, f"{line}\n" if line else "", status < 2)
        program.check("FAILURES", row, (run.status, run.err, run.out != ""), want)


def is_read(run, lint, year):
    """Whether a run on BY_EDITION lints or expands, with the first rule that reads its argument in that edition."""
    first = FIRST_RULE[year]
    if not lint:
        return run.out.startswith(f"arm {first}\n")
    fits = [f"rule {number}: one reading" in run.out.splitlines() for number in range(3)]
    return fits == [number >= first for number in range(3)]


def words(program):
    for row in WORDS:
        text, *asked = row
        run = program.run(text.split(), {"d": BY_EDITION, "a": ALTERNATIVES})
        if asked == ["usage"]:
            program.check("WORDS", row, (run.status, run.out, run.err), (3, "", USAGE))
            continue
        program.check("WORDS", row, (run.status, is_read(run, *asked), run.err), (0, True, ""))


def lines(program):
    for row in LINES:
        text, status, line = row
        run = program.run(text.split())
        program.check("LINES", row, (run.status, run.out, run.err), (status, "", f"{line}\n"))


def files(program):
    for row in FILES:
        text, status = row
        program.check("FILES", row, program.run(text.split(), {"empty": ""}).status, status)


def fault(err, texts):
    """Whether a line says that a text isn't lexed, from a byte on at which a character of it begins, or its end."""
    for name, text in texts.items():
        places = {len(text[:end].encode()) for end in range(len(text) + 1)}
        if any(err == f"cannot lex {name} at {place}\n" for place in places):
            return True
    return False


def has_ended(run, definition, argument):
    """Whether a run of any texts ended as runs do."""
    if run.status in (0, 1):
        return run.out.startswith("error: " if run.status else "arm ") and run.err == ""
    if run.status == 2:
        return run.out == "" and run.err.startswith("definition refused: ")
    return run.status == 4 and run.out == "" and fault(run.err, {DEF: definition, ARG: argument})


class Texts:
    """Runs of a program on texts, in one folder."""

    def __init__(self, program, folder):
        self.program, self.folder = program, folder

    def ran(self, definition, argument, edition=2024, lint=False):
        write(self.folder, DEF, definition)
        write(self.folder, ARG, argument)
        return self.program.run_in(self.folder, [*["--lint"] * lint, DEF, ARG, str(edition)])


def prefixes(program):
    with tempfile.TemporaryDirectory() as folder:
        texts = Texts(program, folder)
        for definition, argument in TEXTS:
            for pair in [
                *((definition[:end], argument) for end in range(len(definition) + 1)),
                *((definition, argument[:end]) for end in range(len(argument) + 1)),
            ]:
                program.check("TEXTS", pair, has_ended(texts.ran(*pair), *pair), True)


def test(program):
    failures(program)
    words(program)
    lines(program)
    files(program)
    prefixes(program)
