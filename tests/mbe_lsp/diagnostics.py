"""Diagnostics on documents: what rustc says of the definition or the call, at rustc's location, with columns as editors count them."""
from mbe_lsp import NAME, changed, initialize, framed, notification, opened, parsed, ending, published, replies, request, short

ERROR, WARNING, INFORMATION = 1, 2, 3

PAIR = "macro_rules! pair { ($k:ident => $v:expr) => {}; ($k:ident = $v:expr) => {}; }\n"

# A text, and its diagnostics: the start, the end, the severity and the message.
TEXTS = (
    ("fn main() {}", []),
    (PAIR + "fn main() { pair!(b = 2 + 3); }", []),
    (PAIR + "fn main() { pair!(a -> 1); }", [((1, 20), (1, 21), ERROR, "no rules expected `->`")]),
    # A macro of no file: certainly none in a program, and maybe one of the crate in another file.
    ("fn main() { no_such!(); }", [((0, 12), (0, 19), ERROR, "cannot find macro `no_such` in this scope")]),
    ("fn f() { no_such!(); }", []),
    # A macro that isn't in scope.
    ("fn main() { { macro_rules! m { () => {}; } } m!(); }",
     [((0, 45), (0, 46), INFORMATION, "cannot find macro `m` in this scope")]),
    # Text that isn't Rust.
    ("fn main() { let s = \"abc; }", [((0, 20), (0, 20), ERROR, "unterminated double quote string")]),
    # Columns count units of UTF-16: two for U+1D11E, one for é. A tab is one.
    ("macro_rules! m { (a) => {}; }\nfn f() { /* \U0001d11eé */\tm!(b); }",
     [((1, 22), (1, 23), ERROR, "no rules expected `b`")]),
    # Lines end with a carriage return and a line feed.
    ("macro_rules! m { (a) => {}; }\r\n\r\nfn f() { m!(b); }\r\n",
     [((2, 12), (2, 13), ERROR, "no rules expected `b`")]),
    # Lints of definitions.
    ("macro_rules! m { ($t:ty) => {}; ($t:ty) => {}; }",
     [((0, 32), (0, 39), WARNING, "unreachable rule: rule 1 matches everything it does")]),
)

# Texts, the numbers of the diagnostic and the tags and messages that are related to it.
RELATED = (
    (PAIR + "fn main() { pair!(a -> 1); }", [], [
        ((1, 20), "rule 1 of `pair!` stops here; expected `=>`"), ((0, 30), "`=>` in rule 1 of `pair!`"),
        ((1, 20), "rule 2 of `pair!` stops here; expected `=`"), ((0, 59), "`=` in rule 2 of `pair!`"),
    ]),
    ("macro_rules! m { ($t:ty) => {}; ($t:ty) => {}; }", [1], [((0, 17), "rule 1 of `m!`")]),
    ("fn main() { { macro_rules! m { () => {}; } } m!(); }", [], [((0, 27), "`m!` is defined here")]),
    # The calls that led to a call in an expansion.
    ("macro_rules! m { (a) => {}; }\nmacro_rules! n { ($t:tt) => { m!($t) }; }\nfn f() { n!(b); }", [], [
        ((2, 12), "rule 1 of `m!` stops here; expected `a`"), ((0, 18), "`a` in rule 1 of `m!`"), ((2, 9), "in this macro invocation"),
    ]),
    # A name that the call binds.
    ("macro_rules! m { ($x:ident) => { let $x = 1; a + $x } }\nfn f() { m!(a); }", [], [((1, 12), "`a` is bound here")]),
    # A macro with a similar name.
    ("macro_rules! mine { () => {}; }\nfn main() { mime!(); }", [], [
        ((1, 12), "a macro with a similar name exists: `mine`"), ((0, 13), "similarly named macro `mine` defined here"),
    ]),
)

CALL = "macro_rules! m { (a) => {}; }\nfn f() { m!(a); }\n"

# A text, changes one after another, each in a message of its own, the text that results, and how many diagnostics it has.
CHANGES = (
    (CALL, [[((1, 12), (1, 13), "b")]], CALL.replace("m!(a)", "m!(b)"), 1),
    (CALL, [["fn f() {"]], "fn f() {", 1),
    (CALL, [[((1, 12), (1, 13), "")], [((1, 12), (1, 12), "\U0001d11e")]], CALL.replace("m!(a)", "m!(\U0001d11e)"), 1),
    ("// \U0001d11eé\n" + CALL, [[((0, 3), (0, 5), "x"), ((0, 5), (0, 5), "\nm!(c);\n")]], "// xé\nm!(c);\n\n" + CALL, 1),
    # A column beyond the end of its line is the end, and a line beyond the end of the text too.
    (CALL, [[((0, 99), (0, 99), "\nm!(d);")]], CALL.replace("}; }\n", "}; }\nm!(d);\n"), 1),
    (CALL, [[((9, 9), (9, 9), "m!(e);")]], CALL + "m!(e);", 1),
    (CALL, [[((0, 0), (9, 9), "m!(e);")]], "m!(e);", 0),
    # A range that ends before it starts is empty, at its start.
    (CALL, [[((2, 0), (1, 0), "m!(f);")]], CALL + "m!(f);", 1),
    # The middle of a character is its start.
    ("/*\U0001d11e*/" + CALL, [[((0, 3), (0, 4), "x")]], "/*x*/" + CALL, 0),
    (CALL.replace("\n", "\r\n"), [[((1, 12), (1, 13), "b"), ((2, 0), (2, 0), "m!(g);")]],
     CALL.replace("m!(a)", "m!(b)").replace("\n", "\r\n") + "m!(g);", 2),
)


def diagnostics_of(program, messages, *encodings):
    told = [initialize(*encodings), *messages, *ending()]
    return published(parsed(program.run_in("/", [], b"".join(map(framed, told))).out))


def in_changes(changes):
    return [it if isinstance(it, str) else ((it[0], it[1]), it[2]) for it in changes]


def test(program):
    for text, want in TEXTS:
        program.check("texts", text, short(diagnostics_of(program, [opened(text)])), want)
    for text, tags, want in RELATED:
        first = diagnostics_of(program, [opened(text)])[0]
        got = [((it["location"]["range"]["start"]["line"], it["location"]["range"]["start"]["character"]), it["message"])
               for it in first["relatedInformation"]]
        program.check("related", text, (first["tags"], got), (tags, want))
    for text, changes, want, count in CHANGES:
        got = diagnostics_of(program, [opened(text), *(changed(in_changes(it)) for it in changes)])
        program.check("changes", (text, changes), got, diagnostics_of(program, [opened(want)]))
        program.check("changes, as they end", want, len(got), count)
    # In UTF-8, columns are bytes.
    text = "macro_rules! m { (a) => {}; }\nfn f() { /* \U0001d11eé */\tm!(b); }"
    got = short(diagnostics_of(program, [opened(text)], "utf-8"))
    program.check("bytes", text, got, [((1, 25), (1, 26), ERROR, "no rules expected `b`")])
    # A document that is closed has none.
    closed = notification("textDocument/didClose", textDocument={"uri": NAME})
    program.check("closed", "", diagnostics_of(program, [opened(CALL.replace("(a);", "(b);")), closed]), [])
    pulled(program)
    in_files(program)


def pulled(program):
    """A client that asks for diagnostics gets them then, and none are published."""
    start = initialize()
    start["params"]["capabilities"]["textDocument"] = {"diagnostic": {"dynamicRegistration": False}}
    asks = request(1, "textDocument/diagnostic", textDocument={"uri": NAME})
    text = CALL.replace("(a);", "(b);")
    for documents, want in (([opened(text)], [((1, 12), (1, 13), ERROR, "no rules expected `b`")]),
                            ([opened(CALL)], []), ([], [])):
        told = b"".join(map(framed, [start, *documents, asks, *ending()]))
        found = parsed(program.run_in("/", [], told).out)
        report = next(it["result"] for it in found if it.get("id") == 1)
        program.check("pulled", documents, (report["kind"], short(report["items"]), published(found)), ("full", want, None))


# Files, the one that is open with its text in the editor, and its diagnostics.
PACKAGE = {
    "Cargo.toml": '[package]\nname = "p"\nversion = "0.1.0"\nedition = "2021"\n',
    "src/lib.rs": "#[macro_use]\nmod a;\npub fn f() { m!(a); }\n",
    "src/a.rs": "#[macro_export]\nmacro_rules! m { (a) => {}; }\n",
    "tests/t.rs": "fn g() { p::m!(a); }\n",
}
ALONE = {"a.rs": "#[macro_use]\nmod b;\nfn f() { m!(a); }\n", "b.rs": "macro_rules! m { (a) => {}; }\n"}
FAULT = "no rules expected `b`"
FILES = (
    (PACKAGE, [("src/lib.rs", PACKAGE["src/lib.rs"])], "src/lib.rs", []),
    # What isn't saved counts.
    (PACKAGE, [("src/lib.rs", PACKAGE["src/lib.rs"].replace("(a);", "(b);"))], "src/lib.rs", [((2, 16), (2, 17), ERROR, FAULT)]),
    (PACKAGE, [("src/lib.rs", PACKAGE["src/lib.rs"]), ("src/a.rs", PACKAGE["src/a.rs"].replace("(a)", "(c)"))], "src/lib.rs",
     [((2, 16), (2, 17), ERROR, "no rules expected `a`")]),
    # Two documents of a crate: each has its own diagnostics.
    (PACKAGE, [("src/lib.rs", PACKAGE["src/lib.rs"].replace("(a);", "(b);")), ("src/a.rs", PACKAGE["src/a.rs"])], "src/a.rs", []),
    (PACKAGE, [("src/lib.rs", PACKAGE["src/lib.rs"]), ("src/a.rs", PACKAGE["src/a.rs"] + "fn g() { m!(b); }\n")], "src/a.rs",
     [((2, 12), (2, 13), ERROR, FAULT)]),
    (PACKAGE, [("src/lib.rs", PACKAGE["src/lib.rs"]), ("src/a.rs", PACKAGE["src/a.rs"] + "fn g() { m!(b); }\n")], "src/lib.rs", []),
    # A test uses the library of the package.
    (PACKAGE, [("tests/t.rs", PACKAGE["tests/t.rs"])], "tests/t.rs", []),
    (PACKAGE, [("tests/t.rs", "fn g() { p::m!(b); }\n")], "tests/t.rs", [((0, 15), (0, 16), ERROR, FAULT)]),
    # A file of no package, with its modules.
    (ALONE, [("a.rs", ALONE["a.rs"])], "a.rs", []),
    (ALONE, [("a.rs", ALONE["a.rs"].replace("(a)", "(b)"))], "a.rs", [((2, 12), (2, 13), ERROR, FAULT)]),
)


def in_files(program):
    for files, documents, which, want in FILES:
        found, _ = replies(
            program, lambda at, documents=documents: [opened(text, f"file://{at}/{path}") for path, text in documents], files)
        got = [it["params"]["diagnostics"] for it in found
               if it.get("method") == "textDocument/publishDiagnostics" and it["params"]["uri"].endswith(f"/{which}")]
        program.check("files", documents, short(got[-1]), want)
