"""Answers on calls and definitions: hover, definition, references, symbols, expansion, code actions, signatures, numbers of calls and
completion.

In a text, `§` is where the cursor is, and `«` and `»` are around what the answer is about.
"""
from mbe_lsp import NAME, actions, asked, at, opened, replies, request, results

TWO = "macro_rules! two { () => { 2 }; ($e:expr) => { [$e, $e] }; }\n"

# The rule by which a call expands.
DEFINITIONS = (
    "macro_rules! two { () => { 2 }; «($e:expr)» => { [$e, $e] }; }\nfn f() { tw§o!(1); }",
    "macro_rules! two { «()» => { 2 }; ($e:expr) => { [$e, $e] }; }\nfn f() { two!(§); }",
    "macro_rules! m { (a) => {}; «(b)» => {}; }\nfn f() { m§!(b); }",
    "macro_rules! m { (a) => {}; «($x:ident)» => {}; }\nfn f() { m!(b§); }",
    # The last definition before the call.
    "macro_rules! m { () => { 1 }; }\nmacro_rules! m { «()» => { 2 }; }\nfn f() { m!§(); }\nmacro_rules! m { () => { 3 }; }",
    # No rule matches: the name of the macro.
    "macro_rules! «m» { (a) => {}; }\nfn f() { m§!(b); }",
    "macro m {\n  (a) => { 1 },\n  «(b)» => { 2 }\n}\nfn f() { m§!(b); }",
    "macro m«($x:tt)» { $x }\nfn f() { m§!(b); }",
    # A variable in a rule: where the rule binds it.
    "macro_rules! m { ($x:tt) => { $x }; ($xy:tt, «$x»:expr) => { [$§x, $xy] }; }",
    "macro_rules! m { («$é»:tt) => { $é§ }; }",
    "macro m(«$x»:tt) { $x§ }",
    # No call, no definition, and no variable that the rule binds.
    "macro_rules! m { ($x:tt) => { $§y }; }",
    "macro_rules! m { ($x:tt) => { x§ }; }",
    "fn f() { §g(1); }",
    "fn f() { pri§ntln!(); }",
)

# The calls of a macro.
REFERENCES = (
    "macro_rules! m§ { () => {}; }\nfn f() { «m»!(); }\nfn g() { «m»!(); n!(); vec![«m»!()]; }",
    "macro_rules! m { () => {}; }\nfn f() { «§m»!(); }",
    "fn f() { §g(); }",
)

# What a hover has, each a part of its text.
HOVERS = (
    (TWO + "fn f() { two!(§1 + 2); }",
     ["Rule 2 of `two!`, line 1 of", "($e:expr) => { [$e, $e] }", "`$e:expr` in rule 2 of `two!` is bound to `1 + 2`",
      "```rust\n[(1 + 2), (1 + 2)]"]),
    (TWO + "fn f() { two!(§); }", ["Rule 1 of `two!`, line 1 of", "```rust\n2"]),
    ("macro_rules! m { (a) => {}; (b c) => {}; }\nfn f() { m!(b §d); }",
     ["No rule of `m!` applies", "- rule 1 of `m!` stops here; expected `a`", "- rule 2 of `m!` stops here; expected `c`"]),
    (TWO + "§fn f() { two!(1); }", None),
    # A variable, and a fragment specifier.
    ("macro_rules! m { ($a:tt, $x:ty) => { [$a, $§x] }; }", ["`$x:ty`: a type"]),
    ("macro_rules! m { ($§x:expr) => {}; }", ["`$x:expr`: an expression"]),
    # What calls bind a variable to, by this rule.
    (TWO.replace("[$e", "[$§e") + "fn f() {\n  two!(1 + 2);\n  two!();\n}\nfn g() { two!(3) }",
     ["`$e:expr`: an expression", "- line 3 of `", "`: `1 + 2`", "- line 6 of `", "`: `3`"]),
    ("macro_rules! m { ($x:tt) => { $x }; ($§x:tt b) => {}; }\nfn f() { m!(a); }", ["`$x:tt`: a token, or a group"]),
    ("macro_rules! m { ($x:e§xpr) => {}; }", ["`expr`: an expression"]),
    ("macro_rules! m { ($x:no§thing) => {}; }", None),
    ("macro_rules! m { ($x:expr) => { x§ }; }", None),
    ("fn f(x: ex§pr) {}", None),
)

# What a call expands to.
EXPANSIONS = (
    (TWO + "fn f() { let x = two!§(1); }", ("two", "[1, 1]")),
    (TWO + "fn f() { let x = two!(§two!()); }", ("two", "[2, 2]")),
    ("macro_rules! m { (a) => {}; }\nfn f() { m!§(b); }", None),
    (TWO + "§fn f() {}", None),
)

NEST = "macro_rules! one { () => { 1 }; }\nmacro_rules! all { () => { one!() }; }\n"

# A text, the title of a code action, and the text that it makes, except for its white space.
ACTIONS = (
    (TWO + "fn f() { let x = two!(§1); }", "Inline this call of `two!`", TWO + "fn f() { let x = [1, 1]; }"),
    (NEST + "fn f() { let x = all!(§); }", "Inline this call of `all!`", NEST + "fn f() { let x = 1; }"),
    (NEST + "fn f() { let x = all!(§); }", "Expand one step of `all!`", NEST + "fn f() { let x = one!(); }"),
    # A local of the macro and one of the call remain two variables.
    ("macro_rules! m { ($e:expr) => { { let a = 1; a + $e } }; }\nfn f(a: u8) -> u8 { m!(§a) }", "Inline this call of `m!`",
     "macro_rules! m { ($e:expr) => { { let a = 1; a + $e } }; }\nfn f(a: u8) -> u8 { { let a_1 = 1; a_1 + a } }"),
)

# A text, and the text after its calls of one macro are inlined; None if that isn't offered.
INLINED = (
    (TWO + "fn f() { two!(§1); two!(); vec![two!(2)]; }", TWO + "fn f() { [1, 1]; 2; vec![[2, 2]]; }"),
    # A call that no rule expands is unchanged.
    (TWO + "fn f() { two!(§1); two!(fn); two!(); }", TWO + "fn f() { [1, 1]; two!(fn); 2; }"),
    (TWO + "fn f() { two!(§1); }", None),
    # The calls are maybe of different macros.
    (TWO + "fn f() { two!(§1); two!(); }\nmod m { macro_rules! two { () => {}; } }", None),
)

# Texts, and the signatures of the call; none if there are none.
SIGNATURES = (
    (TWO + "fn f() { two!(§); }", ["two!()", "two!($e:expr)"]),
    ("macro_rules! m { (a\n  b) => {}; }\nfn f() { m!(a §); }", ["m!(a b)"]),
    (TWO + "fn f() { tw§o!(); }", []),
    (TWO + "fn f() { g(§); }", []),
    ("fn f() { println!(§); }", []),
)

# Texts on which nothing is offered.
NO_ACTIONS = (
    "macro_rules! m { (a) => {}; }\nfn f() { m!§(b); }",
    "fn f() { §g(); }",
)

# Texts, and the labels that are offered among others; none are offered if there are none.
COMPLETIONS = (
    ("macro_rules! m { ($x:§) => {}; }", ["block", "expr", "ident", "item", "lifetime", "literal", "meta", "pat", "path", "stmt", "tt", "ty", "vis"]),
    ("macro_rules! m { ($x:ex§) => {}; }", ["expr"]),
    ("macro_rules! mine { () => {}; }\nfn f() { mi§ }", ["mine!"]),
    ("fn f() { a.mi§ }", []),
    ("fn f() { let x: §u8; }", []),
)


def marked(text):
    """A text without its marks, the cursor, and the ranges that are marked."""
    plain, cursor, starts, ranges, line, column = [], None, [], [], 0, 0
    for char in text:
        if char == "§":
            cursor = line, column
        elif char == "«":
            starts.append((line, column))
        elif char == "»":
            ranges.append((starts.pop(), (line, column)))
        else:
            plain.append(char)
            line, column = (line + 1, 0) if char == "\n" else (line, column + len(char.encode("utf-16-le")) // 2)
    return "".join(plain), cursor, ranges


def answer(program, text, method):
    """The answer to a request at the mark of a text."""
    plain, cursor, ranges = marked(text)
    found, _ = replies(program, [opened(plain), asked(1, method, *cursor)])
    return results(found)[1], ranges


def in_text(found):
    return at(found["range"]["start"]), at(found["range"]["end"])


def edited(text, change):
    """A text after the edits of a change, whose columns are those of characters below U+10000."""
    for edit in change:
        lines = text.split("\n")
        starts = [sum(len(it) + 1 for it in lines[:number]) for number in range(len(lines))]
        start, end = (starts[line] + column for line, column in in_text(edit))
        text = text[:start] + edit["newText"] + text[end:]
    return text


def test(program):
    for text in DEFINITIONS:
        got, ranges = answer(program, text, "textDocument/definition")
        program.check("definitions", text, [in_text(got)] if got else [], ranges)
    for text in REFERENCES:
        got, ranges = answer(program, text, "textDocument/references")
        program.check("references", text, [in_text(it) for it in got], ranges)
    for text, parts in HOVERS:
        got, _ = answer(program, text, "textDocument/hover")
        missing = [it for it in parts if it not in got["contents"]["value"]] if parts and got else []
        program.check("hovers", text, (got is None, missing, got and got["contents"]["value"]),
                      (parts is None, [], got and got["contents"]["value"]))
    for text, want in EXPANSIONS:
        got, _ = answer(program, text, "rust-analyzer/expandMacro")
        program.check("expansions", text, got and (got["name"], got["expansion"].strip()), want)
    for text, title, want in ACTIONS:
        plain, cursor, _ = marked(text)
        found, _ = replies(program, [opened(plain), actions(1, *cursor)])
        made = [edited(plain, change) for it in results(found)[1] if it["title"] == title for change in it["edit"]["changes"].values()]
        program.check("actions", (text, title), [it.split() for it in made], [want.split()])
    for text in NO_ACTIONS:
        plain, cursor, _ = marked(text)
        found, _ = replies(program, [opened(plain), actions(1, *cursor)])
        program.check("no actions", text, results(found)[1], [])
    for text, want in COMPLETIONS:
        labels = [it["label"] for it in answer(program, text, "textDocument/completion")[0]]
        program.check("completions", text, [it for it in labels if it in want] if want else labels, want)
    for text, want in INLINED:
        plain, cursor, _ = marked(text)
        found, _ = replies(program, [opened(plain), actions(1, *cursor)])
        changes = [it["edit"]["changes"] for it in results(found)[1] if it["title"].startswith("Inline all ")]
        # The last edit is applied first, so the ranges of the others remain right.
        got = [edited(plain, edits[::-1]).split() for change in changes for edits in change.values()]
        program.check("inlined", text, got, [want.split()] if want else [])
    for text, want in SIGNATURES:
        got, _ = answer(program, text, "textDocument/signatureHelp")
        program.check("signatures", text, [it["label"] for it in got["signatures"]] if got else [], want)
    kinds(program)
    lenses(program)
    symbols(program)


def kinds(program):
    """Code actions of the kinds that a client asks for."""
    text = TWO + "fn f() { two!(1); }"
    for only, want in ((["refactor.inline"], 1), (["refactor"], 1), ([""], 1), (["quickfix"], 0), (["quickfix", "refactor"], 1),
                       (["refactor.in"], 0), (["refactor.inline.call"], 0), ([], 0)):
        message = actions(1, 1, 10)
        message["params"]["context"]["only"] = only
        found, _ = replies(program, [opened(text), message])
        program.check("kinds", only, len(results(found)[1]), want)


def lenses(program):
    text = ("macro_rules! a { () => {}; }\nmacro_rules! b { () => {}; }\nmacro_rules! c { () => {}; }\n"
            "mod m { macro_rules! c { () => {}; } }\nfn f() { a!(); a!(); b!(); }\nmacro n() {}\n")
    found, _ = replies(program, [opened(text), request(1, "textDocument/codeLens", textDocument={"uri": NAME})])
    got = [(at(it["range"]["start"]), it["command"]["title"]) for it in results(found)[1]]
    program.check("lenses", text, got, [
        ((0, 13), "2 calls in this crate"), ((0, 17), "expands 2 calls"), ((1, 13), "1 call in this crate"), ((1, 17), "expands 1 call"),
        ((2, 17), "unused"), ((3, 25), "unused"), ((5, 6), "0 calls in this crate"), ((5, 7), "unused")])


def symbols(program):
    text = "macro_rules! m {\n    (a $x:tt) => {};\n    (b) => { 1 };\n}\nfn f() {}\nmacro n($x:tt) { $x }\n"
    found, _ = replies(program, [opened(text), request(1, "textDocument/documentSymbol", textDocument={"uri": NAME})])
    got = [(it["name"], at(it["selectionRange"]["start"]), [(rule["name"], in_text(rule)) for rule in it.get("children", [])])
           for it in results(found)[1]]
    program.check("symbols", text, got, [
        ("m!", (0, 13), [("rule 1: (a $x:tt)", ((1, 4), (1, 19))), ("rule 2: (b)", ((2, 4), (2, 16)))]),
        ("n!", (5, 6), [("rule 1: ($x:tt)", ((5, 7), (5, 21)))]),
    ])
