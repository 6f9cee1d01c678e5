"""Lints of definitions.

rustc 1.95 reports the errors of these rows in these words and at these locations, with two exceptions:

- A definition without rules is reported at its name here.
- An error of a depth is reported at the call's expansion by rustc.

The warnings on unknown variables are the warnings of rustc's lint `meta_variable_misuse`. The similar specifiers are the names that rustc
suggests for fields of these names, as tools/rustc/lint-rows.py shows. The rest is worked out by hand.
"""
import re

from expandm import joined, messages, objects, shown

# The list of specifiers, which is reported for each unknown one.
VALID = (
    "valid fragment specifiers are `ident`, `block`, `stmt`, `expr`, `pat`, `ty`, `lifetime`, `literal`, `path`, "
    "`meta`, `tt`, `item` and `vis`, along with `expr_2021` and `pat_param` for edition compatibility"
)

# The message on a repetition without a variable that repeats there.
FIXED = "attempted to repeat an expression containing no syntax variables matched as repeating at this depth"

# A file, and the lints of its definitions.
DEFINITIONS = (
    ("", ""),
    ("#[cfg(windows)] macro_rules! m { ($x:ident $x:ident) => { $x } }", ""),
    ("fn main() { m!(x); }", ""),
    ("macro_rules! m { ($x:ident) => { $x } }", ""),
    (
        "macro_rules! m { ($x:ident $x:ident) => { $x } }",
        "1:28 error: duplicate matcher binding; 1:19 note: previous binding; ",
    ),
    (
        "macro_rules! m { ($c:idnt) => { $c } }",
        "1:19 error: invalid fragment specifier `idnt`; "
        "1:22 help: a fragment specifier with a similar name exists: `ident`; ",
    ),
    ("macro_rules! m { ($c:zzz) => { $c } }", "1:19 error: invalid fragment specifier `zzz`; "),
    (
        "macro_rules! m { ($e:expr foo) => { $e } }",
        "1:27 error: `$e:expr` is followed by `foo`, which is not allowed for `expr` fragments; "
        "1:19 note: allowed there are: `=>`, `,` or `;`; ",
    ),
    (
        "macro_rules! m { ($e:expr_2021 $b:ty) => { $e $b } }",
        "1:32 error: `$e:expr_2021` is followed by `$b:ty`, which is not allowed for `expr_2021` fragments; "
        "1:19 note: allowed there are: `=>`, `,` or `;`; ",
    ),
    (
        "macro_rules! m { ($e:stmt (a)) => { $e } }",
        "1:27 error: `$e:stmt` is followed by `(`, which is not allowed for `stmt` fragments; "
        "1:19 note: allowed there are: `=>`, `,` or `;`; ",
    ),
    (
        "macro_rules! m { ($($e:expr)|*) => { $($e)* } }",
        "1:29 error: `$e:expr` is followed by `|"
        "`, which is not allowed for `expr` fragments; 1:21 note: allowed there are: `=>`, `,` or `;`; ",
    ),
    (
        "macro_rules! m { ($p:pat |) => { $p } }",
        "1:26 error: `$p:pat` is followed by `|"
        "`, which is not allowed for `pat` fragments; 1:19 note: allowed there are: `=>`, `,`, `=`, `if` or `in`; "
        "1:19 help: try a `pat_param` fragment specifier instead: `$p:pat_param`; ",
    ),
    (
        "macro_rules! m { ($p:pat_param foo) => { $p } }",
        "1:32 error: `$p:pat_param` is followed by `foo`, which is not allowed for `pat_param` fragments; "
        "1:19 note: allowed there are: `=>`, `,`, `=`, `|`, `if` or `in`; ",
    ),
    (
        "macro_rules! m { ($t:path foo) => { $t } }",
        "1:27 error: `$t:path` is followed by `foo`, which is not allowed for `path` fragments; "
        "1:19 note: allowed there are: `{`, `[`, `=>`, `,`, `>`, `=`, `:`, `;`, `|`, `as` or `where`; ",
    ),
    (
        "macro_rules! m { ($v:vis +) => { $v } }",
        "1:26 error: `$v:vis` is followed by `+`, which is not allowed for `vis` fragments; "
        "1:19 note: allowed there are: `,`, an ident or a type; ",
    ),
    (
        "macro_rules! m { ($($x:ident)*) => { $x } }",
        "1:38 error: variable `x` is still repeating at this depth; 1:21 note: bound at depth 1, and used at depth 0; ",
    ),
    # rustc says `may be` if something else can follow: a later token, a separator, or the end of a group.
    (
        "macro_rules! m { (($e:expr $(bar)?)) => { $e } }",
        "1:30 error: `$e:expr` may be followed by `bar`, which is not allowed for `expr` fragments; "
        "1:20 note: allowed there are: `=>`, `,` or `;`; ",
    ),
    (
        "macro_rules! m { ($e:expr $(bar)?) => { $e } }",
        "1:29 error: `$e:expr` is followed by `bar`, which is not allowed for `expr` fragments; "
        "1:19 note: allowed there are: `=>`, `,` or `;`; ",
    ),
    (
        "macro_rules! m { ($($e:expr)|* foo) => { $($e)* } }",
        "1:32 error: `$e:expr` may be followed by `foo`, which is not allowed for `expr` fragments; "
        "1:21 note: allowed there are: `=>`, `,` or `;`; "
        "1:29 error: `$e:expr` may be followed by `|`, which is not allowed for `expr` fragments; "
        "1:21 note: allowed there are: `=>`, `,` or `;`; ",
    ),
    (
        "macro_rules! m { (($($p:pat)|+)) => { $($p)* } }",
        "1:29 error: `$p:pat` may be followed by `|`, which is not allowed for `pat` fragments; "
        "1:22 note: allowed there are: `=>`, `,`, `=`, `if` or `in`; "
        "1:22 help: try a `pat_param` fragment specifier instead: `$p:pat_param`; ",
    ),
    (
        "macro_rules! m { ($s:stmt $(;)? $(a)?) => { $s } }",
        "1:35 error: `$s:stmt` may be followed by `a`, which is not allowed for `stmt` fragments; "
        "1:19 note: allowed there are: `=>`, `,` or `;`; ",
    ),
    # A variable that the template doesn't use is reported only where its name may be misspelt.
    ("macro_rules! count { () => { 0 }; ($head:tt $($tail:tt)*) => { 1 + count!($($tail)*) } }", ""),
    ("macro_rules! m { ($x:ident) => {} }", ""),
    (
        "macro_rules! m { ($x:ident) => { 1 + x } }",
        "1:19 warning: unused macro variable: `$x`; "
        "1:19 help: if this is intentional, prefix it with an underscore: `$_x`; ",
    ),
    (
        "macro_rules! m { ($name:ident) => { fn $naem() {} } }",
        "1:40 warning: unknown macro variable `naem`; "
        "1:40 help: there's a macro metavariable with a similar name: `$name`; "
        "1:19 warning: unused macro variable: `$name`; "
        "1:19 help: if this is intentional, prefix it with an underscore: `$_name`; ",
    ),
    ("macro_rules! m { ($_n:ident) => { $other } }", "1:35 warning: unknown macro variable `other`; "),
    (
        "macro_rules! m { ($($xs:ident),*) => { $( fn $xs() { $crate::foo($zzz) } )* } }",
        "1:66 warning: unknown macro variable `zzz`; ",
    ),
    (
        "macro_rules! m { ($Max:ident) => { [{ $MAX }]; $q $Max } }",
        "1:39 warning: unknown macro variable `MAX`; "
        "1:39 help: there's a macro metavariable with a similar name: `$Max`; 1:48 warning: unknown macro variable `q`; ",
    ),
    ("macro_rules! m { ($r#x:ident) => { $x } }", ""),
    ("macro m($_x:ident) { $yyy }", "1:22 warning: unknown macro variable `yyy`; "),
    # The variables of a definition inside a template aren't known.
    ("macro_rules! m { ($x:ident) => { macro_rules! i { ($y:ident) => { $y $x } } } }", ""),
    ("macro_rules! m { ($x:ident) => { macro i($y:ident) { $y $x } } }", ""),
    # A separator before `?`.
    (
        "macro_rules! q { ($(a),?) => { 0 }; }",
        "1:23 error: the `?` macro repetition operator does not take a separator; ",
    ),
    (
        "macro_rules! q { ($($x:ident)*) => { $($x),? }; }",
        "1:43 error: the `?` macro repetition operator does not take a separator; ",
    ),
    (
        "macro_rules! q { ($(a)? [$($(c)=>?),*]) => { 0 }; (b $(a) else ?) => { $(x)'l? } ; }",
        "1:32 error: the `?` macro repetition operator does not take a separator; "
        "1:59 error: the `?` macro repetition operator does not take a separator; "
        f"1:76 error: the `?` macro repetition operator does not take a separator; 1:73 error: {FIXED}; ",
    ),
    ("macro q($(a);?) { }", "1:13 error: the `?` macro repetition operator does not take a separator; "),
    ("macro_rules! q { ($(a)?? $(b)?) => { 0 }; }", ""),
    # A repetition of a template without a variable that repeats there. rustc reports the first one of each call.
    (
        "macro_rules! m { ($n:ident, $($x:ident),*) => { $($n)* $($x)* } }",
        f"1:50 error: {FIXED}; ",
    ),
    ("macro_rules! m { ($($x:ident),*) => { $( foo )* $($x)* } }", f"1:40 error: {FIXED}; "),
    (
        "macro_rules! m { ($($x:ident),*) => { $($x $( [foo] $yyy )*)* } }",
        f"1:53 warning: unknown macro variable `yyy`; 1:45 error: {FIXED}; ",
    ),
    ("macro_rules! m { ($($x:ident),*) => { { $($( $x )*)* } } }", f"1:44 error: {FIXED}; "),
    ("macro_rules! m { ($x:ident) => { $($( $x )*)* ($(a)?) } }", f"1:35 error: {FIXED}; 1:49 error: {FIXED}; "),
    (
        "macro_rules! m { ($x:ident) => { $x macro_rules! i { ($($y:ident)*) => { $($y)* } } } }",
        f"1:56 error: {FIXED}; 1:75 error: {FIXED}; ",
    ),
    ("macro_rules! m { ($($x:ident)*) => { $($($(a)*)*)* } }", f"1:39 error: {FIXED}; "),
    ("macro_rules! m { ($($x:ident)*) => { $()* } }", f"1:14 error: {FIXED}; "),
    ("macro_rules! m { ($($a:ident),* ; $($b:ident),*) => { $( n!(@row $a; $($b),*); )* } }", f"1:71 error: {FIXED}; "),
    ("macro_rules! m { ($($a:ident),*; $($($b:ident),*);*) => { $( $a $( $b ),* )* } }", ""),
    (
        "macro_rules! m {\n    (a) => { $ ( a ) * };\n    ($x:ident) => {\n        $(\n            f($x);\n        )*\n    };\n}",
        f"2:16 error: {FIXED}; 4:10 error: {FIXED}; ",
    ),
    ("macro_rules! m { ($($x:ident)*) => { $( ${ignore($x)} a )* } }", ""),
    ("macro_rules! m { (($x:ident)*) => { ($x)* $(${concat(a, $x)})* } }", f"1:14 error: {FIXED}; "),
    # A definition without rules.
    ("macro_rules! empty { }", "1:14 error: macros must contain at least one rule; "),
    ("mod x { #[macro_export] macro_rules! e ( ); }\npub macro n { }", "1:38 error: macros must contain at least one rule; "
        "2:11 error: macros must contain at least one rule; "),
    ("macro m() { }", ""),
    ("macro_rules! m {\n    (a $x) => {};\n}", "2:8 error: missing fragment specifier; "),
    ("macro_rules! m { () => {} () => {} }", "1:27 error: expected `;`; "),
    ("macro m($x:tt) { $x $- }", "1:21 error: expected ident; "),
    ("macro_rules! m { () => }", "1:24 error: expected subtree; "),
    (
        "macro_rules! m { ($x:ident) => {x}; ($(a)? b) => {}; ($()*) => {} }",
        "1:56 error: repetition matches empty token tree; "
        "1:19 warning: unused macro variable: `$x`; "
        "1:19 help: if this is intentional, prefix it with an underscore: `$_x`; ",
    ),
    (
        "macro m($x:idnt) { $x }",
        "1:9 error: invalid fragment specifier `idnt`; "
        "1:12 help: a fragment specifier with a similar name exists: `ident`; ",
    ),
    (
        "macro m { ($x:ident) => {x}, ($y:ident) => { $y } }",
        "1:12 warning: unused macro variable: `$x`; "
        "1:12 help: if this is intentional, prefix it with an underscore: `$_x`; "
        "1:30 warning: unreachable rule: rule 1 matches everything it does; "
        "1:11 note: rule 1 of `m!`; ",
    ),
    (
        "mod a {\n    macro_rules! m { ($x : tt) => { [x] } }\n}\nmacro_rules! n { ($ y:tt) => { [[y]] } }",
        "2:23 warning: unused macro variable: `$x`; "
        "2:23 help: if this is intentional, prefix it with an underscore: `$_x`; "
        "4:19 warning: unused macro variable: `$y`; "
        "4:19 help: if this is intentional, prefix it with an underscore: `$_y`; ",
    ),
    ("m! { macro_rules! n { ($x:tt) => {} } }\nmacro_rules! o { () => { macro_rules! p { ($x:zzz) => {} } } }", ""),
)

# A definition of `m!`, and its unreachable rules, each with its location and the earlier rule that matches everything it does.
UNREACHED = (
    ("macro_rules! m { (a $x:ty) => { $x }; (a $y:ty) => { $y } }", "1:39 by 1; "),
    ("macro_rules! m { (a) => { 1 };\n (b) => { 2 };\n (a) => { 3 };\n (b) => { 4 } }", "3:2 by 1; 4:2 by 2; "),
    ("macro_rules! m { (a) => {}; (a) => {}; (a) => {} }", "1:29 by 1; 1:40 by 1; "),
    # Each rule matches calls that the other doesn't.
    ("macro_rules! m { ($x:ty) => { $x }; ($x:expr) => { $x } }", ""),
    ("macro_rules! m { ($($x:ident),*) => { $($x)* }; ($($x:ident);*) => { $($x)* } }", ""),
    ("macro_rules! m { ($($x:ident)*) => { $($x)* }; ($($x:ident)+) => { $($x)+ } }", ""),
    ("macro_rules! m { ((a)) => {}; ([a]) => {} }", ""),
    ("macro_rules! m { (+ =) => {}; (+=) => {} }", ""),
    # `$($t:tt)*` matches everything, and `$($t:tt)+` doesn't.
    ("macro_rules! m { ($($t:tt)*) => { $($t)* }; (a [b $x:expr]) => { $x } }", "1:45 by 1; "),
    ("macro_rules! m { ($($t:tt)+) => { $($t)* }; (a) => {} }", ""),
    ("macro_rules! m { ($($t:tt),*) => { $($t)* }; (a) => {} }", ""),
    # If the template of the earlier rule faults, the search goes on.
    ("macro_rules! m { ($($x:ident)*) => { $($x)+ }; ($($_y:ident)*) => {} }", ""),
    (
        "macro_rules! m { ($($x:ident)* ; $($y:ident)*) => { $($x $y)* }; "
        "($($a:ident)* ; $($b:ident)*) => { $($a)* $($b)* } }",
        "1:66 by 1; ",
    ),
    ("macro_rules! m { ($($x:ident)*) => { $x }; ($($y:ident)*) => { $($y)* } }", ""),
    ("macro_rules! m { attr() (a) => {}; (a) => {} }", ""),
)

# An unknown specifier, and the field that rustc 1.95 names for it, if it does, where a struct has the specifiers as its fields, in its
# order.
SIMILAR = (
    ("exp", "expr"),
    ("ide", ""),
    ("tokentree", ""),
    ("t", "ty"),
    ("type", ""),
    ("pat_", "pat"),
    ("pattern", ""),
    ("itm", "item"),
    ("vs", "vis"),
    ("viz", "vis"),
    ("lit", ""),
    ("lifetme", "lifetime"),
    ("lifetimes", "lifetime"),
    ("blok", "block"),
    ("EXPR", "expr"),
    ("Ident", "ident"),
    ("literl", "literal"),
    ("pathh", "path"),
    ("met", "meta"),
    ("stm", "stmt"),
    ("expr_20", "expr_2021"),
    ("pat_parm", "pat_param"),
    ("x", ""),
    ("ti", "ty"),
    ("expression", ""),
    ("tts", "tt"),
    ("identifier", ""),
    ("tpe", ""),
    ("epxr", "expr"),
    ("idnet", "ident"),
    ("vsi", "vis"),
    ("expr2021", "expr_2021"),
    ("patparam", "pat_param"),
    ("statement", ""),
    ("atem", "item"),
    ("TT", "tt"),
    ("expr_2024", "expr_2021"),
    ("pa", "pat"),
    ("visibility", ""),
    ("paht", "pat"),
)

# The example of docs/EXPANDM.md: a file, its reports, and these reports as objects.
EXAMPLES = (
    (
        """\
macro_rules! each { ($($x:exp),* $last:ident) => { $x $lst }; }
""",
        """\
error: invalid fragment specifier `exp`
 --> a.rs:1:24
  |
1 | macro_rules! each { ($($x:exp),* $last:ident) => { $x $lst }; }
  |                        ^^^^^^
  |
help: a fragment specifier with a similar name exists: `expr`
 --> a.rs:1:27
  |
1 | macro_rules! each { ($($x:exp),* $last:ident) => { $x $lst }; }
  |                           ^^^
help: valid fragment specifiers are `ident`, `block`, `stmt`, `expr`, `pat`, `ty`, `lifetime`, `literal`, `path`, \
`meta`, `tt`, `item` and `vis`, along with `expr_2021` and `pat_param` for edition compatibility
 --> a.rs:1:27
  |
1 | macro_rules! each { ($($x:exp),* $last:ident) => { $x $lst }; }
  |                           ^^^

warning: unknown macro variable `lst`
 --> a.rs:1:55
  |
1 | macro_rules! each { ($($x:exp),* $last:ident) => { $x $lst }; }
  |                                                       ^^^^
  |
help: there's a macro metavariable with a similar name: `$last`
 --> a.rs:1:55
  |
1 | macro_rules! each { ($($x:exp),* $last:ident) => { $x $lst }; }
  |                                                       ^^^^

warning: unused macro variable: `$last`
 --> a.rs:1:34
  |
1 | macro_rules! each { ($($x:exp),* $last:ident) => { $x $lst }; }
  |                                  ^^^^^^^^^^^
  |
help: if this is intentional, prefix it with an underscore: `$_last`
 --> a.rs:1:34
  |
1 | macro_rules! each { ($($x:exp),* $last:ident) => { $x $lst }; }
  |                                  ^^^^^^^^^^^

error: variable `x` is still repeating at this depth
 --> a.rs:1:52
  |
1 | macro_rules! each { ($($x:exp),* $last:ident) => { $x $lst }; }
  |                                                    ^^
  |
note: bound at depth 1, and used at depth 0
 --> a.rs:1:24
  |
1 | macro_rules! each { ($($x:exp),* $last:ident) => { $x $lst }; }
  |                        ^^^^^^

""",
        """\
1:24 23..29 error: invalid fragment specifier `exp`
1:27 26..29 help: a fragment specifier with a similar name exists: `expr`
1:27 26..29 help: valid fragment specifiers are `ident`, `block`, `stmt`, `expr`, `pat`, `ty`, `lifetime`, `literal`, \
`path`, `meta`, `tt`, `item` and `vis`, along with `expr_2021` and `pat_param` for edition compatibility
1:55 54..58 warning: unknown macro variable `lst`
1:55 54..58 help: there's a macro metavariable with a similar name: `$last`
1:34 33..44 warning: unused macro variable: `$last`
1:34 33..44 help: if this is intentional, prefix it with an underscore: `$_last`
1:52 51..53 error: variable `x` is still repeating at this depth
1:24 23..29 note: bound at depth 1, and used at depth 0
""",
    ),
)

# A message on an unreachable rule: the location of the rule, and the number of the earlier rule.
REACHES = re.compile(r"(\S+) warning: unreachable rule: rule (\d+) matches everything it does")

# A message on an unknown specifier: the similar specifier.
EXISTS = re.compile(r"\S+ help: a fragment specifier with a similar name exists: `(\w+)`")


def linted(program, text, *words):
    """A run on the definitions of the file `a.rs`."""
    return program.run(["--edition", "2021", "--lint", *words, "a.rs"], {"a.rs": text})


def last_line(reports):
    """The line after these reports, which counts the errors and the warnings."""
    counts = [(len(re.findall(f"^{level}: ", reports, re.M)), level) for level in ("error", "warning")]
    parts = [f"{count} {level}{'' if count == 1 else 's'}" for count, level in counts if count]
    return f"{', '.join(parts)}\n" if parts else ""


def test(program):
    for row in DEFINITIONS:
        text, want = row
        ran = linted(program, text)
        found = joined(it for it in messages(ran.err) if not it.endswith(f" help: {VALID}"))
        program.check("linted.DEFINITIONS", row, (ran.status, ran.out, found), (int(want != ""), "", want))
    for row in UNREACHED:
        text, want = row
        found = filter(None, map(REACHES.fullmatch, messages(linted(program, text).err)))
        program.check("linted.UNREACHED", row, joined(" by ".join(it.groups()) for it in found), want)
    for row in SIMILAR:
        name, want = row
        said = messages(linted(program, f"macro_rules! m {{ ($c:{name}) => {{ $c }} }}").err)
        found = "".join(it[1] for it in map(EXISTS.fullmatch, said) if it)
        is_unknown = f"1:19 error: invalid fragment specifier `{name}`" in said
        program.check("linted.SIMILAR", row, (is_unknown, found), (True, want))
    for row in EXAMPLES:
        text, want, lines = row
        ran, again = linted(program, text), linted(program, text, "--json")
        found = "".join(shown(report) for report in objects(again.err))
        got = (ran.status, ran.err, again.status, found)
        program.check("linted.EXAMPLES", row, got, (1, want + last_line(want), 1, lines))
