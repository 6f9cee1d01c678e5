"""What the rules of a crate do with its calls.

The rows try the lenses of rules, the semantic tokens of calls and definitions, and the origins of
the tokens of an expansion. They also try the fix by which a rule accepts a trailing comma.

In a text, `§` is where the cursor is.
"""
from mbe_lsp import NAME, actions, asked, at, initialize, notification, opened, parsed, framed, ranged, replies, request, results
from mbe_lsp.answers import edited, in_text, marked
from mbe_lsp.editing import excerpt

TYPES = ("macro", "parameter", "type", "function", "keyword", "operator", "variable", "string", "number", "typeParameter", "modifier",
         "decorator")

# A text, and the lenses of its rules: the lines, and the titles.
LENSES = (
    ("macro_rules! m {\n  (a) => { m!(b) };\n  (b) => {};\n  (c) => {};\n}\nfn f() { m!(a); m!(b); }",
     [(1, "expands 1 call"), (2, "expands 2 calls"), (3, "unused")]),
    # Two macros of one name: each call counts for the one that it resolves to.
    ("macro_rules! m {\n  () => {};\n}\nfn f() { m!(); }\nmod a {\n  macro_rules! m {\n  () => {};\n  (b) => {};\n}\n  fn g() { m!(b); m!(b); }\n}",
     [(1, "expands 1 call"), (6, "unused"), (7, "expands 2 calls")]),
    # A call that no rule matches, and one that `cfg` disables.
    ("macro_rules! m {\n  (a) => {};\n}\nfn f() { m!(b); }\n#[cfg(windows)]\nfn g() { m!(a); }", [(1, "unused")]),
    # A definition with an error has no lenses of rules.
    ("macro_rules! m {\n  ($x:nothing) => {};\n}\nfn f() { m!(b); }", []),
    ("macro n(\n  $x:tt\n) { $x }\nfn f() { n!(1) }", [(0, "expands 1 call")]),
)

# A text, and its tokens with their types.
TOKENS = (
    ("macro_rules! m { ($n:ident = $t:ty, $e:expr, $l:lifetime $v:vis, #[$a:meta] $($x:expr);*) => { [$n, $crate::f(), ${count($x)}] }; }\n"
     "fn f() { m!(a = Vec<u8>, b, 'c pub(crate), #[inline] 1; d + 2); }",
     "m:macro $n:parameter ident:type $t:parameter ty:type $e:parameter expr:type $l:parameter lifetime:type $v:parameter vis:type "
     "$a:parameter meta:type $x:parameter expr:type $n:parameter $crate:keyword count:function $x:parameter "
     "m:macro a:variable =:operator Vec:type u8:type ,:operator b:variable ,:operator ':typeParameter c:typeParameter "
     "pub:modifier crate:modifier ,:operator #:operator inline:decorator 1:number ;:operator 2:number"),
    # A literal, a token of a `tt`, and words of the pattern.
    ("macro_rules! m { ($l:literal, $t:tt => c) => {}; }\nfn f() { m!(\"é\", x => c); }",
     "m:macro $l:parameter literal:type $t:parameter tt:type m:macro \"é\":string ,:operator =:operator >:operator c:keyword"),
    # Doc comments and strings of several lines are left to the editor.
    ("macro_rules! m { ($(#[$a:meta])* $i:ident $s:literal) => {}; }\nm! { /// doc\n x \"a\nb\" }",
     "m:macro $a:parameter meta:type $i:parameter ident:type $s:parameter literal:type m:macro x:variable"),
    # A call that no rule matches, a variable that isn't bound, and a specifier that there isn't.
    ("macro_rules! m { (a) => {}; }\nfn f() { m!(b); }", "m:macro m:macro"),
    ("macro_rules! m { ($x:tt) => { $y $x $$x }; }", "m:macro $x:parameter tt:type $x:parameter"),
    ("macro_rules! m { ($x:foo) => {}; }", "m:macro $x:parameter"),
    # A call in the argument of another one.
    ("macro_rules! m { () => { 2 }; ($e:expr) => { $e }; }\nfn f() { m!(m!()); vec![m!(1)]; }",
     "m:macro $e:parameter expr:type $e:parameter m:macro vec:macro m:macro 1:number"),
    ("fn f() { g(1); }", ""),
)

# A text, and the tokens of the expansion at the cursor: each with its source, and with its text there.
ORIGINS = (
    ("macro_rules! m { ($e:expr) => { f($e, g) }; }\nfn h() { m!(§a + 1); }",
     "f:template:f a:argument:a +:argument:+ 1:argument:1 g:template:g"),
    ("macro_rules! one { () => { 1 }; }\nmacro_rules! all { ($e:expr) => { [one!(), $e] }; }\nfn f() { all!(§x); }",
     "1:template:1 x:argument:x"),
    # A local with another name.
    ("macro_rules! m { ($e:expr) => { { let a = 1; a + $e } }; }\nfn f(a: u8) -> u8 { m!(§a) }",
     "let:template:let a_1:template:a =:template:= 1:template:1 a_1:template:a +:template:+ a:argument:a"),
    ("macro_rules! m { ($x:ident) => { /// doc\n fn $x() { $crate::g() } }; }\nm!(§f);",
     "/// doc:template:/// doc fn:template:fn f:argument:f crate:template:crate ::template:: ::template:: g:template:g"),
)

# A text, and the texts that its quick fixes make.
COMMAS = (
    ("macro_rules! m { ($a:expr) => {}; }\nfn f() { m!(1§,); }", ["macro_rules! m { ($a:expr $(,)?) => {}; }\nfn f() { m!(1,); }"]),
    ("macro_rules! m { ($($a:expr),*) => {}; }\nfn f() { m!(1, 2,§); }",
     ["macro_rules! m { ($($a:expr),* $(,)?) => {}; }\nfn f() { m!(1, 2,); }"]),
    ("macro_rules! m { (a) => {}; ($a:ident: $($b:tt)*) => {}; ($($a:expr),+) => {}; }\nfn f() { §m!(1, 2,); }",
     ["macro_rules! m { (a) => {}; ($a:ident: $($b:tt)*) => {}; ($($a:expr),+ $(,)?) => {}; }\nfn f() { m!(1, 2,); }"]),
    # Another rule than the last.
    ("macro_rules! m { [$a:ident] => {}; (b c) => {}; }\nfn f() { m![a§,]; }", ["macro_rules! m { [$a:ident $(,)?] => {}; (b c) => {}; }\nfn f() { m![a,]; }"]),
    # More is missing than the comma, there is no trailing comma, or the call expands.
    ("macro_rules! m { ($a:expr, $b:expr) => {}; }\nfn f() { m!(1§,); }", []),
    ("macro_rules! m { ($a:expr, $($b:expr),+) => {}; }\nfn f() { m!(1§,); }", []),
    ("macro_rules! m { ($a:expr) => {}; }\nfn f() { m!(1§, 2); }", []),
    ("macro_rules! m { ($($a:expr,)*) => {}; }\nfn f() { m!(1,§); }", []),
    ("macro_rules! m { () => {}; }\nfn f() { m!(§,); }", []),
    # Which macro is called isn't sure.
    ("macro_rules! m { ($a:expr) => {}; }\nfn f() { m!(1§,); }\nmod a { macro_rules! m { () => {}; } }", []),
)


def tokens_of(text, data):
    """The tokens that a list of numbers has, each with its type."""
    line = column = 0
    found = []
    for at in range(0, len(data), 5):
        down, right, length, kind, modifiers = data[at:at + 5]
        line, column = line + down, right if down else column + right
        found.append(f"{excerpt(text, ((line, column), (line, column + length)))}:{TYPES[kind]}{modifiers or ''}")
    return found


def test(program):
    for text, want in LENSES:
        found, _ = replies(program, [opened(text), request(1, "textDocument/codeLens", textDocument={"uri": NAME})])
        got = [(it["range"]["start"]["line"], it["command"]["title"]) for it in results(found)[1]]
        program.check("lenses of rules", text, [it for it in got if "in this crate" not in it[1]], want)
    for text, want in TOKENS:
        found, _ = replies(program, [opened(text), request(1, "textDocument/semanticTokens/full", textDocument={"uri": NAME})])
        program.check("tokens", text, " ".join(tokens_of(text, results(found)[1]["data"])), want)
    for text, want in ORIGINS:
        got = preview(program, text, True)
        plain, _, _ = marked(text)
        origins = [(excerpt(got["expansion"], in_text(it)), it["source"], excerpt(plain, in_text(it["location"]))) for it in got["origins"]]
        program.check("origins", text, " ".join(":".join(it) for it in origins), want)
        program.check("files of origins", text, {it["location"]["uri"] for it in got["origins"]}, {NAME})
        program.check("no origins", text, preview(program, text, False).get("origins"), None)
    for text, want in COMMAS:
        plain, cursor, _ = marked(text)
        wanted = actions(1, *cursor)
        wanted["params"]["context"]["only"] = ["quickfix"]
        found, _ = replies(program, [opened(plain), wanted])
        got = [edited(plain, edits) for it in results(found)[1] for edits in it["edit"]["changes"].values()]
        program.check("trailing commas", text, got, want)
    origins_in_package(program)
    part_of_tokens(program)
    legend(program)
    after_changes(program)


def preview(program, text, with_origins):
    """The expansion at the cursor of a text."""
    plain, cursor, _ = marked(text)
    wanted = asked(1, "mbe/expansion", *cursor)
    wanted["params"]["origins"] = with_origins
    found, _ = replies(program, [opened(plain), wanted])
    return results(found)[1]


def origins_in_package(program):
    """The expansion of a macro of another package, whose `$crate` becomes `::dep`."""
    text, library = "fn g() { dep::m!(x); }\n", "#[macro_export]\nmacro_rules! m { ($e:expr) => { $crate::f($e) } }\n"
    package = "[package]\nname = \"{}\"\nversion = \"0.1.0\"\nedition = \"2021\"\n"
    files = {"Cargo.toml": package.format("a") + "[dependencies]\ndep = { path = \"dep\" }\n", "src/lib.rs": text,
             "dep/Cargo.toml": package.format("dep"), "dep/src/lib.rs": library}

    def wanted(folder):
        uri = f"file://{folder}/src/lib.rs"
        place = {"textDocument": {"uri": uri}, "position": {"line": 0, "character": 12}}
        return [opened(text, uri), request(1, "mbe/expansion", origins=True, **place)]

    got = results(replies(program, wanted, files)[0])[1]
    texts = {"argument": text, "template": library}
    origins = [(excerpt(got["expansion"], in_text(it)), it["location"]["uri"].split("/")[-3],
                excerpt(texts[it["source"]], in_text(it["location"]))) for it in got["origins"]]
    program.check("origins in a package", text, [(one, there) for one, _, there in origins], [
        (":", "$"), (":", "$"), ("dep", "crate"), (":", ":"), (":", ":"), ("f", "f"), ("x", "x")])
    program.check("files of a package", text, [folder == "dep" for _, folder, _ in origins], [True] * 6 + [False])


def part_of_tokens(program):
    """The tokens of some lines, and a request without a range."""
    text = "macro_rules! m { ($e:expr) => { $e }; }\nfn f() { m!(1); }\nfn g() { m!(2); }"
    part = request(1, "textDocument/semanticTokens/range", textDocument={"uri": NAME}, range=ranged((1, 0), (2, 0)))
    wrong = request(2, "textDocument/semanticTokens/range", textDocument={"uri": NAME})
    got = results(replies(program, [opened(text), part, wrong])[0])
    program.check("tokens of a part", text, (tokens_of(text, got[1]["data"]), got[2]["code"]), (["m:macro", "1:number"], -32602))


def legend(program):
    """The names of the types of tokens."""
    ran = program.run([], stdin=b"".join(map(framed, [initialize(), request("end", "shutdown"), notification("exit")])))
    able = parsed(ran.out)[0]["result"]["capabilities"]["semanticTokensProvider"]
    program.check("legend", "", (able["legend"], able["full"], able["range"]), ({"tokenTypes": list(TYPES), "tokenModifiers": []}, True, True))


def after_changes(program):
    """What rules do with calls after a change, in a document of its own, and in another file of the crate."""
    text = "macro_rules! m {\n  (a) => {};\n}\nfn f() { m!(a); }\n"
    lens = request(1, "textDocument/codeLens", textDocument={"uri": NAME})
    change = notification("textDocument/didChange", textDocument={"uri": NAME, "version": 2}, contentChanges=[
        {"range": ranged((4, 0), (4, 0)), "text": "fn g() { m!(a); }\n"}])
    got = results(replies(program, [opened(text), lens, change, {**lens, "id": 2}])[0])
    titles = [[it["command"]["title"] for it in got[number]] for number in (1, 2)]
    program.check("after changes", text, titles, [["1 call in this crate", "expands 1 call"], ["2 calls in this crate", "expands 2 calls"]])
    files = {"Cargo.toml": "[package]\nname = \"a\"\nversion = \"0.1.0\"\nedition = \"2021\"\n",
             "src/lib.rs": "#[macro_use]\nmod b;\nfn f() { m!(a); }\n", "src/b.rs": text}
    wanted = lambda folder: [  # noqa: E731
        opened(files["src/lib.rs"], f"file://{folder}/src/lib.rs"), opened(text, f"file://{folder}/src/b.rs"),
        request(1, "textDocument/codeLens", textDocument={"uri": f"file://{folder}/src/lib.rs"}),
        request(2, "textDocument/codeLens", textDocument={"uri": f"file://{folder}/src/b.rs"}),
    ]
    got = results(replies(program, wanted, files)[0])
    lenses = [(at(it["range"]["start"]), it["command"]["title"]) for it in got[2]]
    program.check("files of a crate", text, (got[1], lenses), ([], [((0, 13), "2 calls in this crate"), ((1, 2), "expands 2 calls")]))
