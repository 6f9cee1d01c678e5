"""The data of `--trace=json`: an object for the files, and one for each call. What is bound and where each token is from was worked out
by hand.
"""
import json
import re

from expandm import defined

REPLACED = "m { ($a:ident) => { f($a) } }"
TEXT = defined(REPLACED, "m!(x);")

# The call of this text.
CALL = {
    "reason": "call",
    "call": 0,
    "parent": None,
    "state": "expanded",
    "macro": "m",
    "start": [0, 43, 44],
    "end": [0, 47, 48],
    "definition": [0, 13, 14],
    "rule": 1,
    "variables": [{"name": "a", "kind": "ident", "bound": {"text": "x", "place": [0, 46, 47]}}],
    "argument": "x",
    "rules": [{"rule": 1, "states": ["`$a:ident`", "the end of the call"], "reached": [[0], [1]]}],
    "expansion": "f(x)",
    "tokens": [
        {"text": "f", "origin": "template", "place": [0, 33, 34]},
        {"text": "(", "origin": "template", "place": [0, 34, 35]},
        {"text": "x", "origin": "variable", "variable": "a", "place": [0, 46, 47]},
        {"text": ")", "origin": "template", "place": [0, 37, 38]},
    ],
    "errors": [],
}

# A definition, a call in the next line, and for each variable what it is bound to: texts, and lists of rounds.
BOUND = (
    ("m { ($b:vis $a:ident) => {} }", "m!(x);", {"b": None, "a": "x"}),
    ("m { ($b:vis $a:ident) => {} }", "m!(pub x);", {"b": "pub", "a": "x"}),
    ("m { ($($a:expr),*) => {} }", "m!(1, 2 + 3);", {"a": ["1", "2 + 3"]}),
    ("m { ($($a:expr),*) => {} }", "m!();", {"a": []}),
    ("m { ($([$($a:ident)*])*) => {} }", "m!([x y] []);", {"a": [["x", "y"], []]}),
    ("m { ($($a:tt)*) => {} }", "m!(1 (x));", {"a": ["1", "(x)"]}),
    ("m { () => {} }", "m!();", {}),
    ('m { ($a:literal) => {} }', 'm!("\\"\\n<é>");', {"a": '"\\"\\n<é>"'}),
)

# A definition, a call in the next line, and the tokens of the expansion: each with its origin, or its variable, and its round.
TOKENS = (
    ("m { ($a:ident, $b:tt) => { $b + $a } }", "m!(x, 1);", "1:$b +:template x:$a"),
    ("m { ($($a:expr),*) => { [$($a),*] } }", "m!(1, y);", "[:template 1:$a@1 ,:template y:$a@2 ]:template"),
    ("m { ($([$($a:ident)*])*) => { $($($a)*)* } }", "m!([x] [] [y z]);", "x:$a@1.1 y:$a@3.1 z:$a@3.2"),
    ("m { ($a:expr, $b:expr) => { $a * $b } }", "m!(1 + x, y);", "(:added 1:$a +:$a x:$a ):added *:template y:$b"),
)

# A definition, a call in the next line, and for each rule that is tried what is expected at its states and which are reached at each offset.
# The states are those of `pages.STATES`.
END = "the end of the call"
STATES = (
    ("m { ($($x:ident),* ;) => {} }", "m!(p ;);", [([None, "`$x:ident`", "`,`", "`;`", END], [[1, 3], [2, 3], [4]])]),
    ("m { (a) => {}; ($x:ident,) => {} }", "m!(b);", [(["`a`", END], [[0]]), (["`$x:ident`", "`,`", END], [[0], [1]])]),
    ("m { (a) => {}; (b) => {}; (c) => {} }", "m!(b);", [(["`a`", END], [[0]]), (["`b`", END], [[0], [1]])]),
    ("m { ([$a:tt]) => {} }", "m!([1]);", [(["`[`", "`$a:tt`", "the end of the group", END], [[0], [1], [2], [3]])]),
    ("m { ($x:expr) => {} }", "m!(1 + 2);", [(["`$x:expr`", END], [[0], [], [], [1]])]),
    ("m { ($($a:tt)*) => {} }", f"m!({'1 ' * 401});", [None]),
)

# Options that `--trace=json` can't be used with.
REFUSED = (("--call 2", "--call"), ("--write out", "--write"), ("--html out", "--html"), ("--step 2", "--step"), ("--lint", "--lint"))


def lines(program, text, *words, name="a.rs"):
    """The objects of a run, and its status."""
    ran = program.run([*words, "--trace=json", name], {name: text})
    return [json.loads(line) for line in ran.out.split("\n") if line], ran


def texts(bound):
    """What a variable is bound to, as texts and lists."""
    if isinstance(bound, list):
        return [texts(it) for it in bound]
    return bound and bound["text"]


def token(one):
    origin = f"${one['variable']}" if one["origin"] == "variable" else one["origin"]
    return f"{one['text']}:{origin}" + (f"@{one['round']}" if "round" in one else "")


def check_calls(program):
    found, ran = lines(program, TEXT)
    files = {"reason": "files", "version": 1, "files": ["a.rs"]}
    program.check("trace_data.call", TEXT, (found, ran.err, ran.status), ([files, CALL], "", 0))
    for row in BOUND:
        rules, call, want = row
        found, ran = lines(program, defined(rules, call))
        got = {it["name"]: texts(it["bound"]) for it in found[1]["variables"]}
        program.check("trace_data.BOUND", row, (got, len(found), ran.status), (want, 2, 0))
    for row in TOKENS:
        rules, call, want = row
        found, ran = lines(program, defined(rules, call))
        program.check("trace_data.TOKENS", row, (" ".join(map(token, found[1]["tokens"])), ran.status), (want, 0))


def check_rules(program):
    for row in STATES:
        rules, call, want = row
        found, _ = lines(program, defined(rules, call))
        got = [(it["states"], it["reached"]) if "states" in it else None for it in found[1]["rules"]]
        program.check("trace_data.STATES", row, got, want)
        program.check("trace_data.STATES", row, [it["rule"] for it in found[1]["rules"]], list(range(1, len(want) + 1)))


def check_states(program):
    text = "macro_rules! n { () => {} }\nmacro_rules! m { (a) => { n!(); o!() } }\nfn f() { m!(a); m!(b); }\n"
    found, ran = lines(program, text)
    got = [(it["call"], it["parent"], it["state"], it["macro"], it["rule"]) for it in found[1:]]
    want = [(0, None, "expanded", "m", 1), (1, 0, "expanded", "n", 1), (2, 0, "unknown", "o", None), (3, None, "failed", "m", None)]
    program.check("trace_data.states", text, (got, ran.status), (want, 1))
    errors = re.findall("^a.rs:[0-9:]+ error: (.*)$", ran.err, re.M)
    program.check("trace_data.states", "errors", [error for it in found[1:] for error in it["errors"]], errors)
    nothing = [(it["expansion"], it["tokens"], it["variables"]) for it in found[3:]]
    program.check("trace_data.states", "without an expansion", nothing, [(None, [], [])] * 2)
    program.check("trace_data.states", "definitions", [it["definition"] for it in found[1:]], [[0, 41, 42], [0, 13, 14], None, [0, 41, 42]])


def check_bytes(program):
    """A `place` is in bytes of the file, also if its lines end with a carriage return and a line feed."""
    text = "\r\n\r\n// é\r\n" + TEXT.replace("\n", "\r\n")
    found, _ = lines(program, text)
    got = [text.encode()[it["place"][1] : it["place"][2]].decode() for it in found[1]["tokens"]]
    program.check("trace_data.bytes", text, got, ["f", "(", "x", ")"])


def check_files(program):
    files = {"a.rs": "#[macro_use]\nmod b;\nfn f() { m!() }\n", "b.rs": "macro_rules! m { () => { 1 } }\n"}
    ran = program.run(["--trace=json", "a.rs"], files)
    head, call = [json.loads(line) for line in ran.out.split("\n") if line]
    program.check("trace_data.files", "", (head["files"], call["definition"], call["start"]), (["a.rs", "b.rs"], [1, 13, 14], [0, 29, 30]))
    for words, other in REFUSED:
        ran = program.run(["--trace=json", *words.split(), "a.rs"], files)
        error = f"error: '--trace=json' cannot be used with '{other}'\n"
        program.check("trace_data.REFUSED", words, (ran.status, ran.out, ran.err), (2, "", error))
    ran = program.run(["--trace=xml", "a.rs"], files)
    error = "error: invalid value 'xml' for '--trace[=<FORM>]': expected `json`\n"
    program.check("trace_data.REFUSED", "xml", (ran.status, ran.out, ran.err), (2, "", error))


def test(program):
    check_calls(program)
    check_rules(program)
    check_states(program)
    check_bytes(program)
    check_files(program)
