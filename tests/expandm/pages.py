"""Pages of `--html`: what they show of calls, that no text of a file becomes markup, and folders of pages. What each rule matches, where
it stops and where each token is from was worked out by hand.
"""
import base64
import hashlib
import html.parser
import re
import urllib.parse

from expandm import defined

VOID = {"meta", "link", "br", "img", "input", "rect", "path", "use"}


class Node:
    """An element of a page: its name, its attributes, and what is in it: elements and texts."""

    def __init__(self, name, attributes):
        self.name, self.attributes, self.inside = name, dict(attributes), []

    def classes(self):
        return (self.attributes.get("class") or "").split()

    def all(self, test):
        """The elements in it that pass a test, in order. Elements inside such an element aren't tested."""
        for it in self.inside:
            if isinstance(it, Node):
                if test(it):
                    yield it
                else:
                    yield from it.all(test)

    def of_class(self, name):
        return list(self.all(lambda it: name in it.classes()))

    def text(self, without=()):
        """The text in it, without the text of elements of some classes."""
        parts = []
        for it in self.inside:
            if isinstance(it, str):
                parts.append(it)
            elif not set(it.classes()) & set(without):
                parts.append(it.text(without))
        return "".join(parts)


class Reader(html.parser.HTMLParser):
    """Reads a page into a tree. An end tag that closes no open element is a fault."""

    def __init__(self):
        super().__init__(convert_charrefs=True)
        self.open, self.faults, self.names = [Node("", ())], [], []

    def handle_starttag(self, tag, attrs):
        node = Node(tag, attrs)
        self.names.append(tag)
        self.open[-1].inside.append(node)
        if len(dict(attrs)) < len(attrs):
            self.faults.append(f"an attribute twice in {tag}")
        if tag not in VOID:
            self.open.append(node)

    def handle_startendtag(self, tag, attrs):
        self.names.append(tag)
        self.open[-1].inside.append(Node(tag, attrs))

    def handle_endtag(self, tag):
        if self.open[-1].name != tag:
            self.faults.append(f"</{tag}> in {self.open[-1].name}")
        else:
            self.open.pop()

    def handle_data(self, data):
        self.open[-1].inside.append(data)

    def handle_comment(self, data):
        self.faults.append(f"a comment: {data}")


def read(text):
    """A page as a tree, and what is wrong with its markup."""
    reader = Reader()
    reader.feed(text)
    reader.close()
    if len(reader.open) > 1:
        reader.faults.append(f"{reader.open[-1].name} isn't closed")
    return reader.open[0], reader.faults


def page(program, text, *words, name="a.rs"):
    """The page of a text, as a tree, with its faults and the run's status."""
    ran = program.run([*words, "--html", "-", name], {name: text})
    tree, faults = read(ran.out)
    return tree, faults, ran.status


def by_id(tree, name):
    return next(iter(tree.all(lambda it: it.attributes.get("id") == name)), Node("", ()))


def card_of(call):
    return next(iter(call.of_class("card")), Node("", ()))


def expansion(call):
    """The element with the expansion of a call."""
    found = card_of(call).all(lambda it: it.attributes.get("aria-label") == "Expansion")
    return next(iter(found), Node("", ()))


def tokens(code):
    """The tokens of an expansion: each with its class, and with its round after a `@`."""
    found = []
    for it in code.all(lambda it: it.name == "i" or "card" in it.classes()):
        if it.name == "i":
            round_ = it.attributes.get("data-r")
            found.append(f"{it.text()}:{'.'.join(it.classes())}" + (f"@{round_}" if round_ else ""))
    return " ".join(found)


# A definition, a call of it in the next line, and the tokens of the expansion, each with its origin. `t` is the template, and `v0` the
# first variable of the pattern. `s0` is that variable too, but an earlier step emitted the token. `x` is a token that the expander added.
# `@2` means that round 2 begins with the token.
TOKENS = (
    ("m { ($a:ident) => { f($a) } }", "m!(x);", "f:t (:t x:v0 ):t"),
    ("m { ($a:ident, $b:tt) => { $b + $a } }", "m!(x, 1);", "1:v1 +:t x:v0"),
    ("m { ($($a:expr),*) => { [$($a),*] } }", "m!(1, y, 2);", "[:t 1:v0@1 ,:t y:v0@2 ,:t 2:v0@3 ]:t"),
    (
        "m { ($([$($a:ident)*])*) => { $($($a)*;)* } }",
        "m!([x y] [] [z]);",
        "x:v0@1.1 y:v0@1.2 ;:t ;:t z:v0@3.1 ;:t",
    ),
    ("m { ($a:ident) => { $a $a } }", "m!(x);", "x:v0 x:v0"),
    ("m { () => { 'a' \"b\" 1.5 r#as } }", "m!();", "'a':t \"b\":t 1.5:t r#as:t"),
    ("m { ($a:expr, $b:expr) => { $a * $b } }", "m!(1 + x, y);", "(:x 1:v0 +:v0 x:v0 ):x *:t y:v1"),
    ("m { ($($a:tt)*) => { $($a)* } }", "m!({ x });", "{:v0 x:v0 }:v0"),
)

# Definitions of two macros, a call, the tokens of its expansion, and the tokens of the expansion of the call in it.
INNER = (
    ("f { ($x:tt) => { [$x] } }\nmacro_rules! m { ($a:tt) => { f!($a); } }", "m!(z);", "f:t !:t (:t z:v0 ):t ;:t", "[:t z:v0 ]:t"),
    ("f { ($x:tt) => { [$x] } }\nmacro_rules! m { () => { f!(k); } }", "m!();", "f:t !:t (:t k:t ):t ;:t", "[:t k:s0 ]:t"),
)

# A definition, a call that fails, the text of the tokens where rules stop, and for each rule what is marked in its pattern.
STOPS = (
    ("m { ($a:ident = $b:expr) => {} }", "m!(x 1);", ["1 rule 1 stops here"], ["="]),
    (
        "m { (a) => {}; ($x:ident,) => {} }",
        "m!(b);",
        ["b rule 1 stops here", "end rule 2 stops here"],
        ["a", ","],
    ),
    ("m { ($($x:ident),* ; $y:ty) => {} }", "m!(a b);", ["b rule 1 stops here"], [", ;"]),
)

# A definition, a call, and for each rule the states that partial readings reach: the numbers of those at which something is expected. A `|` is
# between two offsets. `$($x:ident),* ;` has state 0 before the repetition, 1 before `$x`, 2 after it, 3 before `;`, and 4 at the end.
STATES = (
    ("m { ($($x:ident),* ;) => {} }", "m!(p ;);", ["1 3|2 3|4"]),
    ("m { ($($x:ident),* ;) => {} }", "m!(p, q);", ["1 3|2 3|1|2 3"]),
    ("m { (a) => {}; ($x:ident,) => {} }", "m!(b);", ["0", "0|1"]),
    ("m { ([$a:tt]) => {} }", "m!([1]);", ["0|1|2|3"]),
    ("m { ($($a:tt)*) => {} }", "m!(1 2);", ["1 3|1 3|1 3"]),
    ("m { ($(a)? $x:ident) => {} }", "m!(a);", ["1 3|3 4"]),
    ("m { ($x:expr) => {} }", "m!(1 + 2);", ["0|||1"]),
    ("m { ($($a:tt)*) => {} }", f"m!({'1 ' * 400});", ["|".join(["1 3"] * 401)]),
    ("m { ($($a:tt)*) => {} }", f"m!({'1 ' * 401});", [None]),
)

# A definition, a call, and what the variables are bound to: rounds are in brackets.
BOUND = (
    ("m { ($b:vis $a:ident) => {} }", "m!(x);", "$b:vis nothing; $a:ident x; "),
    ("m { ($($a:expr),*) => {} }", "m!(1, 2 + 3);", "$a:expr [1][2 + 3]; "),
    ("m { ($($a:tt)*) => {} }", "m!(1 (x) z);", "$a:tt 1 (x) z rounds: 3; "),
    ("m { ($([$($a:ident)*])*) => {} }", "m!([x y] []);", "$a:ident [[x][y]][no round]; "),
)

# Texts that look like markup. The text of each page's source is the text of the file.
HOSTILE = (
    'fn f() { let s = "</script><script>alert(1)</script>"; }\n',
    "// <!-- <img src=x onerror=alert(1)> --> </style>\nfn f() {}\n",
    'macro_rules! m { ($x:tt) => { $x } }\nconst S: &str = m!("</div></details><script>x()</script>");\n',
    "macro_rules! m { ('<') => {} }\nm!('>');\nm!(\"&lt;'\\\"\");\n",
    "macro_rules! m { () => { /* </script> */ \"&amp;\" } }\nconst S: &str = m!();\n",
    "macro_rules! été { ($é:ident) => { fn $é() {} } }\nété!(naïve);\n",
    "/// <b>doc</b>\nmacro_rules! m { ($(#[$a:meta])* $x:ident) => { $(#[$a])* fn $x() {} } }\nm!(/** </i> */ f);\n",
    "#![cfg_attr(all(), doc = \"<x>\")]\nmacro_rules! m { () => { m!(<>) } }\nm!(<'a>);\n",
    "macro_rules! m { () => { 1 } }\r\n\tconst X: u8 = m!();\r\n",
    "",
    "fn f() {",
)

# Names of files that look like markup.
NAMES = ('a"><script>x()</script>.rs', "a'&<b>.rs")

# What pages are made of.
ELEMENTS = set(
    "html head meta title style body header h1 p b i ul li a small button main section div span details summary code em ol sup mark"
    " svg g rect path text use script h2 h3 h4".split()
)
ATTRIBUTES = set(
    "lang charset http-equiv content name class id href open title tabindex role aria-label data-o data-r data-n data-s data-states data-do hidden type width height"
    " viewbox transform rx y x d".split()
)


def source_text(tree):
    """The text of the file, as the page shows it."""
    code = by_id(tree, "source")
    return code.text(("n", "card")).strip("\n")


def attributes_of(node):
    for it in node.inside:
        if isinstance(it, Node):
            yield from it.attributes.items()
            yield from attributes_of(it)


def is_safe(tree):
    """Whether a page has only the elements and the attributes that pages are made of, and no link out of it."""
    names = {it.name for it in walk(tree)}
    found = dict(attributes_of(tree))
    links = [value for name, value in attributes_of(tree) if name == "href"]
    scripts = [it for it in walk(tree) if it.name in ("script", "style")]
    return (
        names <= ELEMENTS and set(found) <= ATTRIBUTES and all(re.fullmatch("#[a-zA-Z0-9]+", it) for it in links) and len(scripts) == 2
    )


def walk(node):
    for it in node.inside:
        if isinstance(it, Node):
            yield it
            yield from walk(it)


def check_policy(program):
    """The policy of a page names the style sheet and the script of the page, by their SHA-256, and nothing else."""
    tree, faults, _ = page(program, "")
    meta = next(it for it in walk(tree) if it.attributes.get("http-equiv"))
    want = {"default-src 'none'", "base-uri 'none'", "form-action 'none'"}
    for name in ("style", "script"):
        (one,) = [it for it in walk(tree) if it.name == name]
        digest = base64.b64encode(hashlib.sha256(one.text().encode()).digest()).decode()
        want.add(f"{name}-src 'sha256-{digest}'")
    got = {it.strip() for it in meta.attributes["content"].split(";")}
    program.check("pages.policy", "", (got, faults), (want, []))


def bound(node):
    """The rows of a list of bindings, rounds in brackets."""
    parts = []
    for it in node.inside:
        if isinstance(it, str):
            parts.append(it)
        elif it.name == "li":
            parts.append(f"[{bound(it)}]")
        else:
            parts.append(bound(it))
    return "".join(parts)


def check_calls(program):
    for row in TOKENS:
        rules, call, want = row
        tree, faults, status = page(program, defined(rules, call))
        (one,) = by_id(tree, "source").of_class("call")
        program.check("pages.TOKENS", row, (tokens(expansion(one)), faults, status), (want, [], 0))
    for row in INNER:
        rules, call, outer, inner = row
        tree, faults, status = page(program, defined(rules, call))
        (one,) = by_id(tree, "source").of_class("call")
        (two,) = expansion(one).of_class("call")
        got = tokens(expansion(one)), tokens(expansion(two)), faults, status
        program.check("pages.INNER", row, got, (outer, inner, [], 0))
    for row in STOPS:
        rules, call, stops, marked = row
        tree, faults, status = page(program, defined(rules, call))
        (one,) = by_id(tree, "source").of_class("bad")
        found = [it.text() for it in one.all(lambda it: it.name == "mark")]
        wanted = [" ".join(it.text() for it in rule.of_class("want")) for rule in one.of_class("rule")]
        program.check("pages.STOPS", row, (found, wanted, faults, status), (stops, marked, [], 1))
    for row in STATES:
        rules, call, want = row
        tree, faults, _ = page(program, defined(rules, call))
        got = [it.attributes.get("data-states") for it in by_id(tree, "source").of_class("track")]
        program.check("pages.STATES", row, (got, faults), (want, []))
    for row in BOUND:
        rules, call, want = row
        tree, faults, status = page(program, defined(rules, call))
        (one,) = by_id(tree, "source").of_class("call")
        (bindings,) = one.of_class("bindings")
        got = "".join(f"{bound(it)}; " for it in bindings.inside)
        program.check("pages.BOUND", row, (got, faults, status), (want, [], 0))


def check_texts(program):
    for text in HOSTILE:
        tree, faults, _ = page(program, text)
        got = source_text(tree), faults, is_safe(tree)
        program.check("pages.HOSTILE", text, got, (text.replace("\r\n", "\n").strip("\n"), [], True))
    for name in NAMES:
        tree, faults, status = page(program, "fn f() {}\n", name=name)
        (title,) = [it for it in walk(tree) if it.name == "h1"]
        program.check("pages.NAMES", name, (title.text(), faults, is_safe(tree), status), (name, [], True, 0))


def check_deep(program):
    """A call in two hundred others. Each call has one card. A link leads to a card that isn't in its caller's card. No card is in many
    others."""
    munch = "m { () => {}; ($x:tt $($rest:tt)*) => { m! { $($rest)* } } }"
    tree, faults, status = page(program, f"#![recursion_limit = \"512\"]\n{defined(munch, 'm! {' + ' a' * 200 + ' }')}")
    ids = [it.attributes["id"] for it in walk(tree) if it.name == "details" and "call" in it.classes()]
    links = [it.attributes["href"][1:] for it in walk(tree) if "deep" in it.classes()]
    got = sorted(ids) == sorted({f"c{number}" for number in range(201)}), set(links) <= set(ids), depth(tree) < 128, faults, status
    program.check("pages.deep", munch, got, (True, True, True, [], 0))


def depth(node):
    """The greatest depth of nested elements."""
    return max((1 + depth(it) for it in node.inside if isinstance(it, Node)), default=0)


def check_files(program):
    """What a run writes, and what it refuses."""
    files = {"a.rs": "macro_rules! m { () => { 1 } }\nx = m!();\n"}
    ran = program.run(["--html", "p.html", "a.rs"], files)
    there = "p.html" in ran.files and ran.files["p.html"].startswith("<!DOCTYPE html>")
    program.check("pages.files", "written", (ran.status, ran.out, ran.err, there), (0, "", "", True))
    again = program.run(["--html", "-", "a.rs"], files)
    program.check("pages.files", "printed", (again.status, again.out, again.err), (0, ran.files.get("p.html"), ""))
    for path, error in (
        ("a.rs", "couldn't write into `a.rs`: Not a directory (os error 20)"),
        ("", "couldn't write ``: No such file or directory (os error 2)"),
        ("no/p.html", "couldn't write `no/p.html`: No such file or directory (os error 2)"),
    ):
        ran = program.run(["--html", path, "a.rs"], files)
        program.check("pages.files", path, (ran.status, ran.out, ran.err, ran.files), (2, "", f"error: {error}\n", files))
    read_too = {"a.html": files["a.rs"]}
    for path in ("a.html", "./a.html"):
        ran = program.run(["--html", path, "a.html"], read_too)
        error = f"error: `--html {path}` would overwrite `a.html`, which this run reads\n"
        program.check("pages.files", path, (ran.status, ran.out, ran.err, ran.files), (2, "", error, read_too))
    for words, other in (("--write out", "--write <DIR>"), ("--call 2", "--call <LINE[:COL]>"), ("--lint", "--lint")):
        ran = program.run(["--html", "-", *words.split(), "a.rs"], files)
        error = f"error: the argument '--html <PATH>' cannot be used with '{other}'\n"
        program.check("pages.files", words, (ran.status, ran.out, ran.err), (2, "", error))


# A module's file, its root, and the row of each in the list of pages.
CRATE = {
    "src/lib.rs": "#[macro_use]\nmod a;\nfn f() { m!(1); m!(x y); n!(); }\n",
    "src/a.rs": "macro_rules! m { ($x:expr) => { $x } }\nfn g() { m!(2); }\n",
}
ROWS = (
    "src/lib.rs: 1 expanded, 1 failed, 1 of macros without a definition here",
    "src/a.rs: 1 expanded, 0 failed, 0 of macros without a definition here",
)

# Names of files whose links need other characters, or could be taken for addresses.
LINKED = ("javascript:x.rs", 'a"#?%.rs', "a'&<b>\\.rs", "a\tb\n.rs", "#.rs", "é ü.rs")

# Files before the run, the folder, and what the run refuses.
REFUSED = (
    ({"out/index.html": ""}, "out", "`out/index.html` is there, and no earlier run wrote it"),
    ({"out/.expandm": ""}, "out", "`out/.expandm` is there, and doesn't list files that expandm wrote"),
    ({}, "src", "`--html src` would write beside `src/lib.rs`, which this run reads"),
    ({"out": ""}, "out", "couldn't write into `out`: Not a directory (os error 20)"),
)


def listed(text):
    """The rows of a list of pages: the link and the text of each."""
    tree, faults = read(text)
    rows = [(next(it for it in walk(row) if it.name == "a").attributes["href"], row.text()) for row in tree.all(lambda it: it.name == "li")]
    return rows, faults


def check_folder(program):
    """A folder has a page for each file, as a run on one file prints it, and a list of them. A later run overwrites it."""
    ran = program.run(["--html", "out", "src/lib.rs"], CRATE)
    pages = {path: text for path, text in ran.files.items() if path.endswith(".html")}
    names = ["out/a.rs.html", "out/index.html", "out/lib.rs.html"]
    rows, faults = listed(pages.get("out/index.html", ""))
    wanted = list(zip(("./lib.rs.html", "./a.rs.html"), ROWS))
    program.check("pages.folder", "written", (ran.status, ran.out, sorted(pages), rows, faults), (1, "", names, wanted, []))
    one = program.run(["--html", "-", "src/lib.rs"], CRATE)
    program.check("pages.folder", "a page", (pages.get("out/lib.rs.html"), ran.err), (one.out, one.err))
    tree, faults = read(pages.get("out/a.rs.html", ""))
    found = [tokens(expansion(it)) for it in by_id(tree, "source").of_class("call")]
    program.check("pages.folder", "a module", (source_text(tree), found, faults), (CRATE["src/a.rs"].strip(), ["2:v0"], []))
    again = program.run(["--html", "out", "src/lib.rs"], {**ran.files, "src/a.rs": CRATE["src/a.rs"].replace("2", "3")})
    same = {path for path, text in again.files.items() if ran.files.get(path) == text}
    program.check("pages.folder", "again", (again.status, sorted({*again.files} - same)), (1, ["out/a.rs.html", "src/a.rs"]))
    for files, path, error in REFUSED:
        files = {**CRATE, **files}
        ran = program.run(["--html", path, "src/lib.rs"], files)
        program.check("pages.REFUSED", path, (ran.status, ran.out, ran.err, ran.files), (2, "", f"error: {error}\n", files))
    ran = program.run(["--html", "out", "index"], {"index": ""})
    program.check("pages.folder", "index", (ran.status, ran.err), (2, "error: two files would be written as `out/index.html`\n"))


def check_links(program):
    for name in LINKED:
        ran = program.run(["--html", "out", name], {name: "fn f() {}\n"})
        ((link, text),), faults = listed(ran.files.get("out/index.html", ""))
        is_there = f"out/{name}.html" in ran.files
        got = urllib.parse.unquote(link), re.search(r"[#?\\\s]", link.replace(" ", "")), text.startswith(f"{name}: "), is_there, faults
        program.check("pages.LINKED", name, got, (f"./{name}.html", None, True, True, []))


def check_package(program):
    manifest = '[package]\nname = "p"\nversion = "0.1.0"\nedition = "2021"\n'
    ran = program.run(["--html", "out"], {"Cargo.toml": manifest, **CRATE})
    rows, _ = listed(ran.files.get("out/index.html", ""))
    program.check("pages.package", "", (ran.status, [text for _, text in rows]), (1, list(ROWS)))


def test(program):
    check_policy(program)
    check_calls(program)
    check_texts(program)
    check_deep(program)
    check_files(program)
    check_folder(program)
    check_links(program)
    check_package(program)
