"""The frames of `--step`: the call, its rule, what its variables are bound to, and its expansion. All were worked out by hand."""
import os
import pty
import re

from expandm import defined

# A definition, a call in the next line, and the frames.
ROWS = (
    ("m { ($a:ident) => { f($a) } }", "m!(x);", "a.rs:2:1: m! { x }\n  rule 1 of 1\n    $a = x\n  = f(x)\n"),
    ("m { (a) => {}; ($($a:expr),*) => { [$($a),*] } }", "m!(1, y);",
     "a.rs:2:1: m! { 1, y }\n  rule 2 of 2\n    $a = [1 | y]\n  = [1, y]\n"),
    ("m { ($([$($a:ident)*])*) => { } }", "m!([x y] []);", "a.rs:2:1: m! { [x y][] }\n  rule 1 of 1\n    $a = [[x | y] | []]\n  = \n"),
    ("f { ($x:tt) => { [$x] } }\nmacro_rules! m { ($a:tt) => { f!($a); } }", "m!(z);",
     "a.rs:3:1: m! { z }\n  rule 1 of 1\n    $a = z\n  = f!(z);\n  a.rs:2:31: f! { z }\n    rule 1 of 1\n      $x = z\n    = [z]\n"),
    ('m { ($a:tt) => { $a } }', 'm!("é\x1b[31m\u202e漢字");',
     'a.rs:2:1: m! { "é␛[31m\ufffd漢字" }\n  rule 1 of 1\n    $a = "é␛[31m\ufffd漢字"\n  = "é␛[31m\ufffd漢字"\n'),
)

# A text, a position, and the first lines of the frames there.
PLACES = (
    ("macro_rules! m { () => {} }\nm!(); m!();\nm!();", "2", ["a.rs:2:1: m! {  }", "a.rs:2:7: m! {  }"]),
    ("macro_rules! m { () => {} }\nm!(); m!();\nm!();", "2:7", ["a.rs:2:7: m! {  }"]),
    ("macro_rules! m { () => {} }\nm!();", "2:2", []),
    ("macro_rules! m { () => {} }\nm!();", "9", []),
    ("macro_rules! m { ($x:ident) => {} }\r\nconst A: &str = \"é\"; m!(漢);", "2:22", ["a.rs:2:22: m! { 漢 }"]),
)

# Options that `--step` can't be used with, and what the message names.
REFUSED = (("--call 2", "--call <LINE[:COL]>"), ("--write out", "--write <DIR>"), ("--html out", "--html <PATH>"), ("--lint", "--lint"))


def in_terminal(program, words, text, **environment):
    """What a run with a terminal as standard output prints there."""
    own, other = pty.openpty()
    ran = program.run(words, {"a.rs": text}, before=lambda: (os.dup2(other, 1), os.environ.update(environment)))
    os.close(other)
    found = b""
    try:
        while chunk := os.read(own, 65536):
            found += chunk
    except OSError:
        pass
    os.close(own)
    return found.decode().replace("\r\n", "\n"), ran


def check_frames(program):
    for row in ROWS:
        rules, call, want = row
        position = str(1 + rules.count("\n") + 1)
        ran = program.run(["--step", position, "a.rs"], {"a.rs": defined(rules, call)})
        program.check("steps.ROWS", row, (ran.out, ran.err, ran.status), (want, "", 0))
    for row in PLACES:
        text, position, want = row
        ran = program.run(["--step", position, "a.rs"], {"a.rs": text})
        heads = [line for line in ran.out.split("\n") if line.startswith("a.rs:")]
        program.check("steps.PLACES", row, (heads, ran.err, ran.status), (want, "", 0))


# How two rules go through `x = 1 + 2, y 3`: `($($k:ident = $v:expr),*)`, and `(a)`.
MATCHES = """\
      x -- expects `$k:ident` or the end of the call
      = -- expects `=`
      1 + 2 -- expects `$v:expr`
      , -- expects `,` or the end of the call
      y -- expects `$k:ident`
      3 -- expects `=`
    rule 2
      x -- expects `a`
"""


def check_failures(program):
    text = "macro_rules! m { (a) => {} }\nm!(b);\n"
    ran = program.run(["--step", "2", "a.rs"], {"a.rs": text})
    error = ran.err.split(" error: ")[1].split("\n")[0]
    program.check("steps.failures", text, (ran.out, ran.status), (f"a.rs:2:1: m! {{ b }}\n  isn't expanded\n  error: {error}\n    rule 1\n      b -- expects `a`\n", 1))
    text = "macro_rules! m { ($($k:ident = $v:expr),*) => {}; (a) => {} }\nm!(x = 1 + 2, y 3);\n"
    ran = program.run(["--step", "2", "a.rs"], {"a.rs": text})
    rows = ran.out.split("\n    rule 1\n")[1]
    program.check("steps.failures", text, (rows, ran.status), (MATCHES, 1))


def check_terminal(program):
    """In a terminal, tokens have colours, and nothing else differs; with `NO_COLOR` nothing does."""
    rules, call, want = ROWS[1]
    text = defined(rules, call)
    found, _ = in_terminal(program, ["--step", "2", "a.rs"], text)
    program.check("steps.terminal", "colours", (re.sub("\x1b\\[[0-9]*m", "", found), found.count("\x1b[36m")), (want, 4))
    found, _ = in_terminal(program, ["--step", "2", "a.rs"], text, NO_COLOR="1")
    program.check("steps.terminal", "NO_COLOR", found, want)


def check_refused(program):
    for words, other in REFUSED:
        ran = program.run(["--step", "2", *words.split(), "a.rs"], {"a.rs": ""})
        error = f"error: the argument '--step <LINE[:COL]>' cannot be used with '{other}'\n"
        program.check("steps.REFUSED", words, (ran.status, ran.out, ran.err), (2, "", error))
    ran = program.run(["--step", "x", "a.rs"], {"a.rs": ""})
    error = "error: invalid value 'x' for '--step <LINE[:COL]>': expected a line, or a line and a column\n"
    program.check("steps.REFUSED", "x", (ran.status, ran.out, ran.err), (2, "", error))


def test(program):
    check_frames(program)
    check_failures(program)
    check_terminal(program)
    check_refused(program)
