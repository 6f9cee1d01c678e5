"""Findings in rules alone, by the reports of `expandm --lint`, in edition 2024. A finding is one of these:

- `followed NAME START NEXT;`: a token follows the fragment that mustn't follow it;
- `twice NAME START LATER;`, `unknown NAME START;`, `unbound NAME START;`, `unused NAME START;`;
- `repeats NAME START USED;`.

START, NEXT, LATER and USED are byte offsets in the text of a definition: of names, and of the token that follows.
"""
import re

from expandm import joined, objects

# Tokens that follow a fragment, and names that are bound twice or have an unknown specifier. The errors of rustc 1.95 are at the last
# offset of each finding, and nowhere else.
FOLLOWING = (
    ("($_e:expr =>) => {}", ""),
    ("($_e:expr ,) => {}", ""),
    ("($_e:expr ;) => {}", ""),
    ("($_e:expr =) => {}", "followed _e 2 10;"),
    ("($_e:expr foo) => {}", "followed _e 2 10;"),
    ("($_e:expr 1) => {}", "followed _e 2 10;"),
    ("($_e:expr (a)) => {}", "followed _e 2 10;"),
    ("($_e:expr $_i:ident) => {}", "followed _e 2 11;"),
    ("($_e:expr 'a) => {}", "followed _e 2 10;"),
    ("($_e:expr ==) => {}", "followed _e 2 10;"),
    ("($_e:expr ..) => {}", "followed _e 2 10;"),
    ("($_s:stmt =>) => {}", ""),
    ("($_s:stmt ,) => {}", ""),
    ("($_s:stmt ;) => {}", ""),
    ("($_s:stmt {}) => {}", "followed _s 2 10;"),
    ("($_p:pat =>) => {}", ""),
    ("($_p:pat ,) => {}", ""),
    ("($_p:pat =) => {}", ""),
    ("($_p:pat |) => {}", "followed _p 2 9;"),
    ("($_p:pat if) => {}", ""),
    ("($_p:pat in) => {}", ""),
    ("($_p:pat r#if) => {}", "followed _p 2 9;"),
    ("($_p:pat for) => {}", "followed _p 2 9;"),
    ("($_p:pat if ) => {}", ""),
    ("($_p:pat [a]) => {}", "followed _p 2 9;"),
    ("($_p:pat ||) => {}", "followed _p 2 9;"),
    ("($_p:pat_param |) => {}", ""),
    ("($_p:pat_param =>) => {}", ""),
    ("($_p:pat_param ||) => {}", "followed _p 2 15;"),
    ("($_p:pat_param if) => {}", ""),
    ("($_p:pat_param ->) => {}", "followed _p 2 15;"),
    ("($_t:ty {}) => {}", ""),
    ("($_t:path {}) => {}", ""),
    ("($_t:ty []) => {}", ""),
    ("($_t:path []) => {}", ""),
    ("($_t:ty =>) => {}", ""),
    ("($_t:path =>) => {}", ""),
    ("($_t:ty ,) => {}", ""),
    ("($_t:path ,) => {}", ""),
    ("($_t:ty >) => {}", ""),
    ("($_t:path >) => {}", ""),
    ("($_t:ty >>) => {}", ""),
    ("($_t:path >>) => {}", ""),
    ("($_t:ty =) => {}", ""),
    ("($_t:path =) => {}", ""),
    ("($_t:ty :) => {}", ""),
    ("($_t:path :) => {}", ""),
    ("($_t:ty ;) => {}", ""),
    ("($_t:path ;) => {}", ""),
    ("($_t:ty |) => {}", ""),
    ("($_t:path |) => {}", ""),
    ("($_t:ty as) => {}", ""),
    ("($_t:path as) => {}", ""),
    ("($_t:ty where) => {}", ""),
    ("($_t:path where) => {}", ""),
    ("($_t:ty $_b:block) => {}", ""),
    ("($_t:path $_b:block) => {}", ""),
    ("($_t:ty ()) => {}", "followed _t 2 8;"),
    ("($_t:path ()) => {}", "followed _t 2 10;"),
    ("($_t:ty >=) => {}", "followed _t 2 8;"),
    ("($_t:path >=) => {}", "followed _t 2 10;"),
    ("($_t:ty ||) => {}", "followed _t 2 8;"),
    ("($_t:path ||) => {}", "followed _t 2 10;"),
    ("($_t:ty ::) => {}", "followed _t 2 8;"),
    ("($_t:path ::) => {}", "followed _t 2 10;"),
    ("($_t:ty if) => {}", "followed _t 2 8;"),
    ("($_t:path if) => {}", "followed _t 2 10;"),
    ("($_t:ty r#as) => {}", "followed _t 2 8;"),
    ("($_t:path r#as) => {}", "followed _t 2 10;"),
    ("($_t:ty $_b:tt) => {}", "followed _t 2 9;"),
    ("($_t:path $_b:tt) => {}", "followed _t 2 11;"),
    ("($_t:ty +) => {}", "followed _t 2 8;"),
    ("($_t:path +) => {}", "followed _t 2 10;"),
    ("($_v:vis ,) => {}", ""),
    ("($_v:vis fn) => {}", ""),
    ("($_v:vis r#priv) => {}", ""),
    ("($_v:vis priv) => {}", "followed _v 2 9;"),
    ("($_v:vis _) => {}", ""),
    ("($_v:vis true) => {}", ""),
    ("($_v:vis 1) => {}", "followed _v 2 9;"),
    ("($_v:vis \"s\") => {}", "followed _v 2 9;"),
    ("($_v:vis {}) => {}", "followed _v 2 9;"),
    ("($_v:vis ()) => {}", ""),
    ("($_v:vis []) => {}", ""),
    ("($_v:vis <) => {}", ""),
    ("($_v:vis <<) => {}", ""),
    ("($_v:vis <=) => {}", "followed _v 2 9;"),
    ("($_v:vis &) => {}", ""),
    ("($_v:vis &&) => {}", ""),
    ("($_v:vis ?) => {}", ""),
    ("($_v:vis *) => {}", ""),
    ("($_v:vis !) => {}", ""),
    ("($_v:vis ::) => {}", ""),
    ("($_v:vis :) => {}", "followed _v 2 9;"),
    ("($_v:vis 'a) => {}", ""),
    ("($_v:vis $crate) => {}", ""),
    ("($_v:vis $_i:ident) => {}", ""),
    ("($_v:vis $_i:ty) => {}", ""),
    ("($_v:vis $_i:path) => {}", ""),
    ("($_v:vis $_i:lifetime) => {}", "followed _v 2 10;"),
    ("($_v:vis $_i:tt) => {}", "followed _v 2 10;"),
    ("($_v:vis $_i:vis foo) => {}", "followed _v 2 10;"),
    ("($_v:vis =>) => {}", "followed _v 2 9;"),
    ("($_a:ident + $_b:ident 'x {}) => {}", ""),
    ("($_a:block + $_b:block 'x {}) => {}", ""),
    ("($_a:item + $_b:item 'x {}) => {}", ""),
    ("($_a:meta + $_b:meta 'x {}) => {}", ""),
    ("($_a:tt + $_b:tt 'x {}) => {}", ""),
    ("($_a:literal + $_b:literal 'x {}) => {}", ""),
    ("($_a:lifetime + $_b:lifetime 'x {}) => {}", ""),
    ("($($_e:expr)*) => {}", ""),
    ("($($_e:expr)? foo) => {}", "followed _e 4 14;"),
    ("($($_e:expr),* ; $_t:ty) => {}", ""),
    ("($($_e:expr)|*) => {}", "followed _e 4 12;"),
    ("($($_e:expr),* foo) => {}", "followed _e 4 15;"),
    ("($($_e:expr $(,)?)+ foo) => {}", "followed _e 4 20;"),
    ("($_e:expr $($_x:ident)* ,) => {}", "followed _e 2 13;"),
    (
        "($_e:expr $($_x:ident)* foo) => {}",
        "followed _e 2 13;followed _e 2 24;",
    ),
    ("($_e:expr $($_x:ident)+ foo) => {}", "followed _e 2 13;"),
    ("($_e:expr $(, a)? $(; b)* c) => {}", "followed _e 2 26;"),
    ("($_e:expr $($(, a)?)and* ,) => {}", "followed _e 2 20;"),
    ("({$_e:expr} [$_t:ty] ($_p:pat) foo) => {}", ""),
    ("({$_e:expr a} b) => {}", "followed _e 3 11;"),
    ("($($_e:expr, $_t:ty if)*) => {}", "followed _t 14 20;"),
    ("($($($_e:expr)|*);*) => {}", "followed _e 6 14;"),
    ("($($($_e:expr);*)|*) => {}", "followed _e 6 17;"),
    (
        "($_a:expr $_b:expr $_c:expr) => {}",
        "followed _a 2 11;followed _b 11 20;",
    ),
    ("($x:ident $x:ident) => {$x}", "twice x 2 11;"),
    ("($x:ident $($x:ident),*) => {$x}", "twice x 2 13;"),
    (
        "({$x:ident} [$x:ty] ($x:tt)) => {$x}",
        "twice x 3 14;twice x 3 22;",
    ),
    ("($x:foo) => {$x}", "unknown x 2;"),
    (
        "($x:Expr $y:block_ $z:ident) => {$x $y $z}",
        "unknown x 2;unknown y 10;",
    ),
    (
        "($_e:expr $_x:foo) => {}",
        "unknown _x 11;followed _e 2 11;",
    ),
    ("($x:foo priv) => {$x}", "unknown x 2;"),
)

# Variables that a template may misspell, names that aren't bound, and variables that still repeat where the template names them. Worked
# out by hand; rustc 1.95 warns of each unbound one with `-W meta_variable_misuse`, and also of those in `${count(..)}` and `${ignore(..)}`.
VARIABLES = (
    ("() => {}", ""),
    ("($x:ident) => {$x}", ""),
    ("($x:ident) => {}", ""),
    ("($x:ident) => {[($y)]}", "unbound y 18;unused x 2;"),
    ("($x:ident) => {$x $y $yy}", "unbound y 19;unbound yy 22;"),
    ("($x:ident $y:ident) => {${ignore($z)} ${count($z)} $x}", ""),
    ("($x:ident) => {x}", "unused x 2;"),
    ("($_x:ident $_y:ident) => {}", ""),
    ("($x:ident $y:tt) => {$y}", ""),
    ("($x:ident $y:tt) => {$y [(x)]}", "unused x 2;"),
    ("($($x:ident [$y:tt]),*) => {$($x)* {y}}", "unused y 14;"),
    ("($x:ident) => {${ignore($x)}}", ""),
    ("($($x:ident)*) => {${count($x)}}", ""),
    ("($x:ident) => {${concat(a, $x)}}", ""),
    ("($x:ident) => {${concat(a, x)}}", ""),
    ("($x:ident) => {${concat(a, $y)} $x}", "unbound y 28;"),
    ("($($x:ident)*) => {$x}", "repeats x 4 20;"),
    ("($($x:ident)*) => {$($x)*}", ""),
    ("($($x:ident)*) => {$($($x)*)*}", ""),
    ("($($($x:ident)*)*) => {$({$x})*}", "repeats x 6 27;"),
    ("($($($x:ident)*)*) => {$($($x)*)* $x}", "repeats x 6 35;"),
    ("($($x:ident)*) => {${concat(a, $x)}}", "repeats x 4 32;"),
    ("($($x:ident)*) => {${ignore($x)}}", ""),
    ("($x:ident $($x:ident)*) => {$x $y}", "twice x 2 13;unbound y 32;"),
    ("($x:ident) => {}; ($y:ident) => {$x}", "unbound x 34;unused y 20;"),
)

# Definitions with other reports too, which are no findings.
OTHERS = {
    "($($x:ident)*) => {$($($x)*)*}": "attempted to repeat an expression containing no syntax variables matched as repeating at this depth; ",
    "($($($x:ident)*)*) => {$({$x})*}": "repetition matches empty token tree; ",
    "($($($x:ident)*)*) => {$($($x)*)* $x}": "repetition matches empty token tree; ",
    "($x:ident) => {}; ($y:ident) => {$x}": "unreachable rule: rule 1 matches everything it does; ",
}

# For each kind of finding, its part of the text and its message, and the message of the note at the variable. There is a note if the
# variable is elsewhere. The part of an operator of several chars is its first char.
KINDS = (
    (
        "followed",
        r"(?P<next>.+): `\${name}:{specifier}` (is|may be) followed by `(?P=next).*`, which is not allowed for `{specifier}` fragments",
        "allowed there are: .+",
    ),
    ("twice", r"\${name}:\w+: duplicate matcher binding", "previous binding"),
    ("unknown", r"\${name}:{specifier}: invalid fragment specifier `{specifier}`", None),
    ("unbound", r"\${name}: unknown macro variable `{name}`", None),
    ("unused", r"\${name}:{specifier}: unused macro variable: `\${name}`", None),
    ("repeats", r"\${name}: variable `{name}` is still repeating at this depth", r"bound at depth \d+, and used at depth \d+"),
)

VARIABLE = re.compile(r"\$(?P<name>\w+)(:(?P<specifier>\w+))?")

# The text before a definition.
BEFORE = "macro_rules! m { "


def part_of(text, report):
    """The part of a definition that a report is on."""
    (at,) = report["spans"]
    return text[at["byte_start"] - len(BEFORE) : at["byte_end"] - len(BEFORE)]


def place_of(text, report):
    """The byte at which that part begins, or at which its name begins if it is a variable."""
    (at,) = report["spans"]
    return at["byte_start"] - len(BEFORE) + part_of(text, report).startswith("$")


def grouped(reports):
    """The errors and warnings, each with the notes and helps after it."""
    found = []
    for report in reports:
        if report["level"] in ("error", "warning") or not found:
            found.append((report, []))
        else:
            found[-1][1].append(report)
    return found


def finding(text, report, rest):
    """The form of a report and of the notes after it in a row, or nothing if it isn't on a finding."""
    said = f"{part_of(text, report)}: {report['message']}"
    for kind, form, note in KINDS:
        at = next((it for it in rest if note and re.fullmatch(note, it["message"])), report)
        variable = VARIABLE.fullmatch(part_of(text, at))
        if variable and re.fullmatch(form.format(**variable.groupdict()), said):
            later = f" {place_of(text, report)}" if note else ""
            return f"{kind} {variable['name']} {place_of(text, at)}{later};"
    return None


def test(program):
    for table, rows in (("FOLLOWING", FOLLOWING), ("VARIABLES", VARIABLES)):
        for row in rows:
            text, want = row
            ran = program.run(["--edition", "2024", "--lint", "--json", "a.rs"], {"a.rs": f"{BEFORE}{text} }}"})
            said = [(finding(text, report, rest), report["message"]) for report, rest in grouped(objects(ran.err))]
            found = "".join(line for line, _ in said if line)
            others = joined(message for line, message in said if not line)
            got = (ran.status, ran.out, found, others)
            status = int(want != "" or text in OTHERS)
            program.check(f"following.{table}", row, got, (status, "", want, OTHERS.get(text, "")))
