"""What helps to edit macros: references, new names, lines that fold, selections, quick fixes, completion of variables, and the expansion
that is shown beside a document.

In a text, `§` is where the cursor is, and `«` and `»` are around what the answer is about.
"""
from mbe_lsp import NAME, actions, asked, opened, ranged, replies, request, results
from mbe_lsp.answers import answer, edited, in_text, marked

TWO = "macro_rules! two { ($a:expr, $b:expr) => { [$a, $b] }; }\n"

# The uses of a variable in its rule, or of a macro in its crate.
REFERENCES = (
    "macro_rules! m { ($x§:tt) => { [«$x»] }; ($x:tt) => { $x }; }".replace("«$x»", "$«x»"),
    "macro_rules! m { ($x:tt $xy:tt) => { [$«x», $xy, $«§x»] }; }",
    "macro_rules! m { ($x:tt) => { §$«x» }; }",
    "macro_rules! m { ($($x:tt)*) => { ${count($«x»)} $($«x§»)* }; }",
    # A comment and a string have no variables.
    "macro_rules! m { ($x:tt) => { /* $x */ \"$x\" $«§x» }; }",
    # Calls in templates, and imports.
    "macro_rules! m§ { (a) => { «m»!(b) }; (b) => {}; }\nmod a { pub(crate) use «m»; }\nfn f() { «m»!(a); let m = 1; }",
    "macro_rules! m { (a) => { «§m»!(b) }; (b) => {}; }",
    # `$crate` is no variable, and `!=` begins no call.
    "macro_rules! m { () => { $cra§te::f() }; }",
    "macro_rules! m§ { () => {}; }\nfn f(m: u8) -> bool { m != 1 }",
    "fn f(x: bool) { i§f !x {} if !x {} }",
    "macro_§rules! m { () => {}; }\nmacro_rules! n { () => {}; }",
)

# The same with the definition, or the binding.
DECLARED = (
    "macro_rules! m { ($«x»§:tt) => { [$«x»] }; ($x:tt) => { $x }; }",
    "macro_rules! «m§» { () => {}; }\nfn f() { «m»!(); }",
)

# A text, a new name, and the text after it.
RENAMED = (
    ("macro_rules! m { ($x§:tt) => { [$x, x] }; ($x:tt) => { $x }; }", "y",
     "macro_rules! m { ($y:tt) => { [$y, x] }; ($x:tt) => { $x }; }"),
    ("macro_rules! m { ($($x:tt),* $xy:tt) => { $( [$x§] )* /* $x */ \"$x\" ${count($x)} }; }", "$new",
     "macro_rules! m { ($($new:tt),* $xy:tt) => { $( [$new] )* /* $x */ \"$x\" ${count($new)} }; }"),
    # A keyword, and letters of other alphabets.
    ("macro_rules! m { ($é§:tt) => { $é }; }", "type", "macro_rules! m { ($type:tt) => { $type }; }"),
    ("macro m($x:tt) { $x§ }", "y", "macro m($y:tt) { $y }"),
    # Calls in code that `cfg` and `#[test]` disable.
    ("macro_rules! m§ { () => {}; }\n#[cfg(windows)]\nfn f() { m!(); }\n#[test]\nfn g() { m!(); }", "n",
     "macro_rules! n { () => {}; }\n#[cfg(windows)]\nfn f() { n!(); }\n#[test]\nfn g() { n!(); }"),
    # A macro: its definition, its calls, also in templates, and its imports.
    ("macro_rules! m { (a) => { m!(b) }; (b) => { $crate::m!() }; }\npub(crate) use m;\nfn f() { m§!(a); vec![self::m!(b)]; }", "n",
     "macro_rules! n { (a) => { n!(b) }; (b) => { $crate::n!() }; }\npub(crate) use n;\nfn f() { n!(a); vec![self::n!(b)]; }"),
    ("macro_rules! m§ { ($m:tt) => { $m.m() }; }\nfn f(m: u8) { m!(1); m != 2; }", "n",
     "macro_rules! n { ($m:tt) => { $m.m() }; }\nfn f(m: u8) { n!(1); m != 2; }"),
    ("use crate::{a::m as b, c};\nmod a { macro_rules! m§ { () => {}; } pub(crate) use m; }", "n",
     "use crate::{a::n as b, c};\nmod a { macro_rules! n { () => {}; } pub(crate) use n; }"),
)

# A text, a new name, and a part of the error that refuses it.
REFUSED = (
    ("macro_rules! m§ { () => {}; }\n#[cfg(windows)]\nmacro_rules! m { () => {}; }", "n", "something else"),
    ("fn f§() {}", "g", "no macro and no variable"),
    ("macro_rules! m { ($x§:tt $y:tt) => {}; }", "y", "has a variable of that name"),
    ("macro_rules! m { ($x§:tt $x:tt) => {}; }", "y", "doesn't bind this variable once"),
    ("macro_rules! m { ($x:tt) => { $y§ }; }", "z", "doesn't bind this variable once"),
    ("macro_rules! m { ($x§:tt) => { $$x }; }", "y", "`$$`"),
    ("macro_rules! m { ($($x§:tt)*) => { ${count(x)} }; }", "y", "metavariable expression"),
    ("macro_rules! m { ($x§:tt) => {}; }", "1", "can't have that name"),
    ("macro_rules! m { ($x§:tt) => {}; }", "crate", "can't have that name"),
    ("macro_rules! m { ($x§:tt) => {}; }", "", "can't have that name"),
    ("macro_rules! m§ { () => {}; }", "fn", "can't have that name"),
    ("macro_rules! m§ { () => {}; }", "a b", "can't have that name"),
    ("macro_rules! m§ { () => {}; }", "vec", "standard library"),
    ("macro_rules! vec§ { () => {}; }", "v", "standard library"),
    ("macro_rules! m§ { () => {}; }\nfn n() {}", "n", "uses that name"),
    # Several macros of the name, and none.
    ("macro_rules! m§ { () => {}; }\nmod a { macro_rules! m { () => {}; } }", "n", "several"),
    ("fn f() { m§!(); }", "n", "no macro"),
    # The macro of other crates, a macro that may be another one, and a name that may be the macro's.
    ("#[macro_export]\nmacro_rules! m§ { () => {}; }", "n", "exported"),
    ("pub macro m§() {}", "n", "exported"),
    ("fn main() { { macro_rules! m§ { () => {}; } } m!(); }", "n", "resolves to no macro"),
    ("#[cfg(windows)]\nmod other;\nmacro_rules! m§ { () => {}; }", "n", "isn't read"),
    ("macro_rules! m§ { () => {}; }\nfn f() { other::m!(); }", "n", "something else"),
    ("macro_rules! m§ { () => {}; }\nuse other::m;", "n", "something else"),
    ("macro_rules! m§ { () => {}; }\nuse crate::a as m;", "n", "something else"),
    ("macro_rules! m§ { () => {}; }\npub(crate) use m; fn m() {}", "n", "something else"),
    ("macro_rules! m§ { () => {}; }\nmacro_rules! call { ($n:ident) => { $n!() }; }\nfn f() { call!(m); }", "n", "something else"),
)

# A text whose marked lines fold: those from a line's mark to the line of the next mark.
FOLDS = (
    ("fn f() {\n\n}\nmacro_rules! m {\n  (a) => {\n    [\n      1,\n    ]\n  };\n}\n", [(3, 8), (4, 7), (5, 6)]),
    ("macro_rules! m {\n}\nfn f() {\n  m!(\n    a,\n  );\n  g(\n    1,\n  );\n}\n", [(3, 4)]),
    ("macro_rules! m { () => {}; }", []),
    ("/** a\nb\nc */ macro_rules! m { () => {}; }", []),
)

# A text, and the texts of the selections around the cursor, from the smallest one on.
SELECTIONS = (
    ("fn f() { m!(a, [§b]); }", ["b", "[b]", "a, [b]", "(a, [b])", "m!(a, [b])"]),
    ("macro_rules! m { (a) => { b§b }; }", ["bb", " bb ", "{ bb }", "(a) => { bb }"]),
    ("§", [""]),
)

# A text, and the text after its quick fix; None if there is none.
FIXES = (
    ("macro_rules! m { ($x:ex§prr) => { $x }; }", "macro_rules! m { ($x:expr) => { $x }; }"),
    ("macro_rules! m { (§$x:expr) => { x }; }", "macro_rules! m { ($_x:expr) => { x }; }"),
    ("macro_rules! m { ($word:expr) => { $wo§rb }; }", "macro_rules! m { ($word:expr) => { $word }; }"),
    ("macro_rules! mine { () => {}; }\nfn main() { mi§me!(); }", "macro_rules! mine { () => {}; }\nfn main() { mine!(); }"),
    ("macro_rules! m { ($p:pa§t | x) => { $p }; }", "macro_rules! m { ($p:pat_param | x) => { $p }; }"),
    ("macro_rules! m { ($x:expr) => { $x }; }§", None),
    ("macro_rules! m { ($x:qqqqq§qq) => { $x }; }", None),
)

# A text, and the labels that are offered.
COMPLETIONS = (
    ("macro_rules! m { ($a:tt, $($b:ty),*) => { $§ }; }", [("$a", "tt"), ("$b", "ty"), ("$crate", "the crate of the macro")]),
    ("macro_rules! m { ($a:tt) => { [$a§] }; ($b:tt) => {}; }", [("$a", "tt"), ("$crate", "the crate of the macro")]),
    ("macro_rules! m { ($a:tt, $§) => { $a }; }", []),
    ("fn f() { $§ }", []),
)

# A text, and the text, the expansion and the name of the call at the cursor; None if there is none.
PREVIEWS = (
    (TWO + "fn f() { «two!(1, §2)»; }", ("two", "[1, 2]")),
    (TWO + "fn f() { tw§o!(1); }", None),
    (TWO + "fn f() { §g(); }", None),
)


def excerpt(text, place):
    """The part of a text, whose columns are those of characters below U+10000."""
    lines = text.split("\n")
    starts = [sum(len(it) + 1 for it in lines[:number]) for number in range(len(lines))]
    start, end = (starts[line] + column for line, column in place)
    return text[start:end]


def around(selection):
    while selection:
        yield in_text(selection)
        selection = selection.get("parent")


def renamed(program, text, name):
    """The text after the request, or the error; and the range that can be renamed, or the error."""
    plain, cursor, _ = marked(text)
    wanted = asked(1, "textDocument/rename", *cursor)
    wanted["params"]["newName"] = name
    found, _ = replies(program, [opened(plain), wanted, asked(2, "textDocument/prepareRename", *cursor)])
    got = results(found)
    if "changes" not in got[1]:
        return got[1], got[2]
    return "".join(edited(plain, edits[::-1]) for edits in got[1]["changes"].values()), excerpt(plain, in_text(got[2]))


def test(program):
    for declared, texts in ((False, REFERENCES), (True, DECLARED)):
        for text in texts:
            plain, cursor, ranges = marked(text)
            wanted = asked(1, "textDocument/references", *cursor)
            wanted["params"]["context"] = {"includeDeclaration": declared}
            found, _ = replies(program, [opened(plain), wanted])
            program.check("references", text, [in_text(it) for it in results(found)[1]], ranges)
    for text, name, want in RENAMED:
        got, part = renamed(program, text, name)
        program.check("renamed", (text, name), (got, part and part.isidentifier()), (want, True))
    for text, name, want in REFUSED:
        got, _ = renamed(program, text, name)
        why = got if isinstance(got, dict) else {"message": got}
        program.check("refused", (text, name), (why.get("code"), want in why["message"] and want), (-32803, want))
    for text, want in FOLDS:
        found, _ = replies(program, [opened(text), request(1, "textDocument/foldingRange", textDocument={"uri": NAME})])
        program.check("folds", text, sorted((it["startLine"], it["endLine"]) for it in results(found)[1]), want)
    for text, want in SELECTIONS:
        plain, (line, column), _ = marked(text)
        places = [{"line": line, "character": column}]
        found, _ = replies(program, [opened(plain), request(1, "textDocument/selectionRange", textDocument={"uri": NAME}, positions=places)])
        got = [excerpt(plain, it) for it in around(results(found)[1][0])]
        program.check("selections", text, (got[:len(want)], got[-1]), (want, plain))
    for text, want in FIXES:
        plain, cursor, _ = marked(text)
        wanted = actions(1, *cursor)
        wanted["params"]["context"]["only"] = ["quickfix"]
        found, _ = replies(program, [opened(plain), wanted])
        got = [edited(plain, edits) for it in results(found)[1] for edits in it["edit"]["changes"].values()]
        program.check("fixes", text, got, [want] if want else [])
    for text, want in COMPLETIONS:
        got, _ = answer(program, text, "textDocument/completion")
        program.check("variables", text, [(it["label"], it["detail"]) for it in got], want)
    expressions, _ = answer(program, "macro_rules! m { ($($x:tt)*) => { ${§} }; }", "textDocument/completion")
    program.check("expressions", "", [it["label"] for it in expressions], ["concat", "count", "ignore", "index", "len"])
    for text, want in PREVIEWS:
        got, ranges = answer(program, text, "mbe/expansion")
        program.check("previews", text, got and (got["name"], got["expansion"].strip(), [in_text(got)]), want and (*want, ranges))
    fixes_in_a_range(program)


def fixes_in_a_range(program):
    """A quick fix of a diagnostic's whole range."""
    text = "macro_rules! m { ($x:exprr) => { $x }; }"
    message = actions(1, 0, 0)
    message["params"]["range"] = ranged((0, 18), (0, 26))
    found, _ = replies(program, [opened(text), message])
    program.check("fixes in a range", text, [it["title"] for it in results(found)[1]], ["Replace `exprr` by `expr`"])
