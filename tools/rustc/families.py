"""Programs that are each about one matter, for tools/rustc/programs.py.

Each function takes a random generator and the program's number, and returns the program's items
and what its `main` does. Most of the definitions expand to a number of their own, so that the
output says which rule or which definition was taken.
"""


class Text:
    """Lines of a program, and numbers of definitions."""

    def __init__(self, rng):
        self.rng, self.count, self.calls = rng, 0, []

    def next(self):
        self.count += 1
        return self.count

    def some(self, things, least=1, most=3):
        return [self.rng.choice(things) for _ in range(self.rng.randint(least, most))]


def define(text, name, known):
    """A definition of the macro, which may call another one that is known."""
    number = text.next()
    value = str(number)
    others = [k for k in sorted(known) if k != name]
    if others and text.rng.random() < .3:
        value = f"{text.rng.choice(others)}!() + {number}00"
    return f"macro_rules! {name} {{ () => {{ {value} }} }}"


def made_definition(text, name):
    number = text.next()
    made = f"macro_rules! $n {{ () => {{ {number} }} }}"
    return f"macro_rules! mk{number} {{ ($n:ident) => {{ {made} }} }} mk{number}!({name});"


def scope_lines(text, level, known, depth):
    """Lines of a scope: definitions, calls, modules, functions and blocks.
    `known` are the macros in scope."""
    rng, lines = text.rng, []
    for _ in range(rng.randint(2, 4)):
        kind = rng.randrange(9)
        if kind < 3 or not known:
            name = rng.choice("mn")
            is_made = rng.random() < .15
            lines.append(made_definition(text, name) if is_made else define(text, name, known))
            known.add(name)
        elif kind < 5:
            lines.append(call_line(text, level, known))
        elif depth and kind < 7:
            scope = module if level == "item" else block
            lines.append(scope(text, known, depth))
        elif depth:
            number = text.next()
            inner = "\n".join(scope_lines(text, "stmt", set(known), depth - 1))
            name = f"f{number}"
            call = f"\n{name}();" if level == "stmt" else ""
            lines.append(f"pub fn {name}() {{ {inner} }}{call}")
            if level == "item":
                text.calls.append(name)
    return lines


def call_line(text, level, known):
    name = text.rng.choice(sorted(known))
    if level == "stmt":
        return f'print!("{{}} ", {name}!());'
    number = text.next()
    text.calls.append(f"f{number}")
    return f'pub fn f{number}() {{ print!("{{}} ", {name}!()); }}'


def module(text, known, depth):
    seen = text.rng.random() < .5
    outer, text.calls = text.calls, []
    inner_known = set(known)
    name = f"i{text.next()}"
    inner = "\n".join(scope_lines(text, "item", inner_known, depth - 1))
    text.calls = outer + [f"{name}::{c}" for c in text.calls]
    if seen:
        known |= inner_known
    return f"{'#[macro_use] ' if seen else ''}pub mod {name} {{\n{inner}\n}}"


def block(text, known, depth):
    inner = "\n".join(scope_lines(text, "stmt", set(known), depth - 1))
    forms = ["{ %s }", "if true { %s }", "loop { %s break; }", "(|| { %s })();"]
    return text.rng.choice(forms) % inner


def scopes(rng, _number):
    """Textual scopes: order, shadowing, blocks, functions, `#[macro_use]`."""
    text = Text(rng)
    known = set()
    items = scope_lines(text, "item", known, 2)
    body = scope_lines(text, "stmt", known, 2)
    calls = [f"{c}();" for c in text.calls]
    return "\n".join(items), "\n".join(calls + body)


def paths(rng, number):
    """Paths: `use` of a macro, other names, globs, `#[macro_export]`, `$crate`."""
    text, items, ways = Text(rng), [], []
    for at in range(rng.randint(2, 3)):
        value = text.next()
        name, kind = rng.choice("mn"), rng.randrange(4)
        if kind == 0:
            out = f"e{number}_{at}"
            items.append(f"pub mod i{at} {{ pub fn v() -> i32 {{ {value} }} "
                         f"#[macro_export] macro_rules! {out} {{ () => {{ $@@::i{at}::v() }} }} }}")
            ways += [f"crate::{out}!()"]
        elif kind == 1:
            again = rng.choice("mnk")
            items.append(f"pub mod i{at} {{ macro_rules! {name} {{ () => {{ {value} }} }} "
                         f"pub(crate) use {name} as {again}2; }}")
            ways += [f"i{at}::{again}2!()", f"@@::i{at}::{again}2!()"]
        elif kind == 2:
            items.append(f"pub mod i{at} {{ pub mod j {{ "
                         f"macro_rules! {name} {{ () => {{ {value} }} }} "
                         f"pub(crate) use {name}; }} pub(crate) use self::j::{name} as o{at}; "
                         f"pub fn f() -> i32 {{ j::{name}!() * 10 + o{at}!() }} }}")
            ways += [f"i{at}::j::{name}!()", f"i{at}::o{at}!()", f"i{at}::f()"]
        else:
            items.append(f"pub mod i{at} {{ macro_rules! {name} {{ () => {{ {value} }} }} "
                         f"pub(crate) use {name}; }}")
            ways += [f"i{at}::{name}!()", f"{{ use self::i{at}::{name} as z; z!() }}",
                     f"{{ use @@::i{at}::*; {name}!() }}", f"@@::i{at}::{name}!()"]
    if rng.random() < .5:
        items.append(define(text, rng.choice("mn"), set()))
    rng.shuffle(items)
    body = [f'print!("{{}} ", {w});' for w in text.some(ways, 2, 5)]
    return "\n".join(items), "\n".join(body)


RULES = [
    "$e:expr", "$i:ident", "$l:literal", "$t:tt", "1", "-1", "a", "$t:ty", "$p:path", "$b:block",
    "$l:lifetime", "$v:vis $i:ident", "$i:ident $j:ident", "$($t:tt)*", "$($e:expr),*",
    "$($e:expr),+ $(,)?", "-$l:literal", "$p:pat", "$a:tt $b:tt", "$($i:ident)+", "{ $($t:tt)* }",
    "($($t:tt)*)", "$i:ident = $e:expr", "$i:ident!()", "$e:expr_2021", "$p:pat_param", "$m:meta",
    "$s:stmt", "$it:item", "$v:vis", "'a", "r#a", "\"s\"", "true", "_", "$a:ident + $b:ident",
    "$a:expr ; $b:expr", "$(#[$m:meta])* $i:ident", "$a:tt . $b:tt", "fn", "()", "",
    "$(a)? $b:ident", "$x:literal $(, $y:literal)*", "const $b:block", "<$t:ty>", "&$e:expr",
    "$l:lifetime: $b:block",
]
ARGUMENTS = [
    "1", "-1", "a", "a + b", "{ 1 }", "'a", "pub a", "Vec<u8>", "b::c", "[1]", "(1, 2)", "\"s\"",
    "true", "1.5", "r#a", "a!()", "_", "", "a b", "1, 2", "1, 2,", "a = 3", "x = y = 1",
    "const { 1 }", "|x| 1", "..", "1..2", "&a", "&&a", "{ a }", "a { }", "a.b", "a . 1", "1 ; 2",
    "()", "#[x] a", "fn f() {}", "let z = 1", "i32", "- 1", "--1", "!a", "self", "crate",
    "crate::a", "pub(crate) a", "<a>", "<u8 as A>::B", "1 | 2", "|1", "a @ 1", "..=3", "&1",
    "mut a", "ref a", "'a: { 1 }", "unsafe { 1 }", "b\"x\"", "'c'", "1u8", "-1.0", "=>", "a ; 1",
    "struct S;", "async", "dyn", "impl A", "return", "if true { 1 } else { 2 }", "match a {}",
    "r\"s\"", "[u8; 3]",
]
KINDS = [
    "expr", "ident", "literal", "ty", "path", "block", "pat", "pat_param", "tt", "lifetime",
    "meta", "stmt", "item", "vis", "expr_2021",
]
GIVEN = {
    "expr": [
        "1", "-1", "a", "a + b", "{ 1 }", "(1)", "\"s\"", "true", "a.b", "a!()", "b::c", "|x| 1",
        "!a", "[1]", "()",
    ],
    "ident": ["a", "r#a", "b"], "literal": ["1", "-1", "\"s\"", "true", "1.5", "'c'"],
    "vis": ["pub", "", "pub(crate)"],
    "ty": ["a", "u8", "Vec<u8>", "&u8", "(u8, u8)", "b::c", "()", "[u8; 1]", "fn()", "_"],
    "path": ["a", "b::c", "Vec<u8>"], "block": ["{ 1 }", "{}"],
    "pat": ["a", "1", "-1", "_", "Some(1)", "(1, 2)", "1..=2", "&a", "true"],
    "tt": ["a", "1", "(1)", "{ 1 }", "'a", "_", "=>", "true"], "lifetime": ["'a", "'b"],
    "meta": ["a", "a = 1", "a(b)", "b::c"], "stmt": ["let x = 1", "a", "1", "fn f() {}"],
    "item": ["struct S;", "fn f() {}"],
}
GIVEN["expr_2021"], GIVEN["pat_param"] = GIVEN["expr"], GIVEN["pat"]


def rules(rng, _number):
    """Which of the rules of a macro is taken."""
    lines = []
    for name in "mn":
        picked = rng.sample(RULES, rng.randint(2, 4))
        said = [f"({r}) => {{ {at} }};" for at, r in enumerate(picked)]
        lines.append(f"macro_rules! {name} {{ {' '.join(said)} ($($any:tt)*) => {{ 99 }} }}")
    calls = [f'print!("{{}} ", {rng.choice("mn")}!({rng.choice(ARGUMENTS)}));' for _ in range(3)]
    return "\n".join(lines), "\n".join(calls)


SHAPES = ["$x", "$x", "$x", "($x)", "-$x", "$x + b", "$x, 2", "a = $x", "$x;  1", "{ $x }",
          "$x $x"]


def forwards(rng, _number):
    """Fragments that a macro gives to another one, once or twice."""
    picked = rng.sample(RULES, rng.randint(2, 4))
    said = [f"({r}) => {{ {at} }};" for at, r in enumerate(picked)]
    lines = [f"macro_rules! m {{ {' '.join(said)} ($($any:tt)*) => {{ 99 }} }}"]
    calls = []
    for at in range(3):
        kind = rng.choice(KINDS)
        again = rng.choice([kind, kind, "tt", "expr"])
        given = rng.choice(GIVEN[kind])
        shape = rng.choice(SHAPES)
        lines.append(f"macro_rules! w{at} {{ ($x:{kind}) => {{ m!({shape}) }} }}")
        if rng.random() < .35:
            lines.append(f"macro_rules! v{at} {{ ($x:{again}) => {{ w{at}!($x) }} }}")
            calls.append(f'print!("{{}} ", v{at}!({given}));')
        calls.append(f'print!("{{}} ", w{at}!({given}));')
    return "\n".join(lines), "\n".join(calls)


HEADS = [
    "#[cfg(any())]", "#[cfg(all())]", "#[cfg(on)]", "#[cfg(off)]", "#[cfg(unix)]",
    "#[cfg(not(on))]", "/// Said.", "#[allow(unused)]", "#[cfg_attr(all(), cfg(any()))]",
    "#[cfg_attr(on, allow(unused))]", "/** Said. */", "#[cfg(feature = \"f\")]",
    "#[cfg(not(feature = \"f\"))]", "#[doc = \"Said.\"]", "#[doc(hidden)]", "", "",
]
ITEM_MACROS = [
    "macro_rules! none { ($($t:tt)*) => {} }",
    "macro_rules! one { ($a:ident $n:expr) => { pub fn $a() -> i32 { $n } } }",
    "macro_rules! two { ($a:ident $n:expr) => { pub fn $a() -> i32 { $n } pub fn o() -> i32 "
    "{ $n + 50 } } }",
    "macro_rules! on { ($i:item) => { $i } }",
    "macro_rules! tts { ($(#[$($m:tt)*])* $a:ident $n:expr) => { $(#[$($m)*])* pub fn $a() "
    "-> i32 { $n } } }",
    "macro_rules! pass { ($(#[$m:meta])* $a:ident $n:expr) => { $(#[$m])* two! { $a $n } } }",
    "macro_rules! vis { ($(#[$m:meta])* $v:vis $a:ident $n:expr) => { $(#[$m])* $v fn $a() "
    "-> i32 { $n } } }",
]


def item_call(rng, name, number):
    head, inner = rng.choice(HEADS), rng.choice(HEADS)
    inner = inner + ("\n" if inner.startswith("///") else " ")
    call = rng.choice(["none! { x }", f"one! {{ {name} {number} }}", f"two! {{ {name} {number} }}",
                       f"on! {{ {inner}pub fn {name}() -> i32 {{ {number} }} }}",
                       f"tts! {{ {inner}{name} {number} }}", f"pass! {{ {inner}{name} {number} }}",
                       f"vis! {{ {inner}pub {name} {number} }}"])
    return f"{head}\n{call}"


def attributes(rng, _number):
    """Attributes, `cfg` and docs before calls of items, and in their arguments."""
    text, items, uses = Text(rng), list(ITEM_MACROS), []
    for at in range(rng.randint(2, 3)):
        inner = [item_call(rng, "f", text.next()) for _ in range(rng.randint(1, 3))]
        kind = rng.randrange(3)
        rest = ("pub mod d { pub fn f() -> i32 { 900 } pub fn o() -> i32 { 901 } } "
                "pub use self::d::*;")
        if kind < 2:
            items.append(f"pub mod i{at} {{ {rest}\n" + "\n".join(inner) + "\n}")
            uses += [f"i{at}::f()", f"i{at}::o()"]
        else:
            trait = f"pub trait J{at} {{ fn f() -> i32 {{ 902 }} fn o() -> i32 {{ 903 }} }}"
            items.append(f"{trait} impl J{at} for u8 {{}} pub struct I{at}; impl I{at} {{\n"
                         + "\n".join(inner) + f"\n}}\nimpl J{at} for I{at} {{}}")
            uses += [f"I{at}::f()", f"I{at}::o()"]
    return "\n".join(items), "\n".join(f'print!("{{}} ", {u});' for u in uses)


STATEMENT_MACROS = [
    "macro_rules! none { () => {} }", "macro_rules! say { ($n:expr) => { print!(\"{} \", $n) } }",
    "macro_rules! says { ($n:expr) => { print!(\"{} \", $n); print!(\"{} \", $n + 1); } }",
    "macro_rules! bind { ($x:ident $n:expr) => { let $x = $n; let own = $x + 1; print!(\"{} "
    "\", own); } }",
    "macro_rules! val { ($n:expr) => { $n; } }",
    "macro_rules! blk { ($n:expr) => {{ let own = $n; own }} }",
    "macro_rules! semi { ($n:expr) => { print!(\"s\"); $n } }",
    "macro_rules! when { ($c:expr, $n:expr) => { if $c { print!(\"y\") } else { "
    "print!(\"n{}\", $n) } } }",
    "macro_rules! all { ($($s:stmt;)*) => { $($s;)* } }",
    "macro_rules! tail { ($($s:tt)*) => { $($s)* } }",
]
STATEMENT_CALLS = [
    "none!();", "none!{}", "say!(1);", "say! { 2 }", "says!(3);", "says!{4}", "bind!(own 5);",
    "bind!{x 6}", "when!(true, 7);", "when! { false, 8 }",
    "all! { let x = 9; let own = x; print!(\"{} \", own); }", "print!(\"{:?} \", { val!(10) });",
    "print!(\"{:?} \", { blk!(own) });", "print!(\"{} \", own);",
    "print!(\"{} \", { semi!{11} });", "print!(\"{:?} \", { none!() });",
    "let own = blk!(own + 1);", "tail! { let own = own + 100; }",
    "tail! { print!(\"{} \", own); print!(\"t\"); }", "print!(\"{:?} \", say!(12));",
    "let x = (|| val!(13))(); print!(\"{:?} \", x);", "if own > 3 { says!(14) }",
    "match own { 1 => says!(15), _ => val!(()) }", "match own { _ => semi!(()) }", "{ says!(17) }",
    "{ bind!(own 18); print!(\"{} \", own) }", "print!(\"{:?} \", { tail!{19; 20} });",
    "print!(\"{:?} \", { tail!{19; 20;} });", "let _z = tail!({ 1 } + 1);",
]


def statements(rng, _number):
    """Attributes before calls of statements; expansions of many statements; blocks and tails."""
    body = ["let own = 500; let x = 600;"]
    for _ in range(rng.randint(3, 6)):
        call = rng.choice(STATEMENT_CALLS)
        body.append(f"{rng.choice(HEADS)}\n{call}" if rng.random() < .3 else call)
    body.append("print!(\"{} {}\", own, x);")
    return "\n".join(STATEMENT_MACROS), "\n".join(body)


PIECES = {
    "count": (
        "($($t:tt)*) => { 0 $(+ { let _ = stringify!($t); 1 })* }",
        ["a b c", "", "(a b) -1", "'a 'b"],
    ),
    "munch": (
        "() => { 0 }; ($h:tt $($t:tt)*) => { 1 + munch!($($t)*) }",
        ["a b c", "", "- 1", "{ a } [b]"],
    ),
    "rev": (
        "(@r [$($d:expr),*]) => { [0, $($d),*] }; (@r [$($d:expr),*] $h:expr $(, $t:expr)*) "
        "=> { rev!(@r [$h $(, $d)*] $($t),*) }; ($($e:expr),*) => { rev!(@r [] $($e),*) }",
        ["1, 2 + 3, own", "-1", ""],
    ),
    "op": (
        "($a:tt $o:tt $b:tt) => { $a $o $b }; ($a:tt $o:tt $($t:tt)+) => { $a $o op!($($t)+) }",
        ["1 + 2", "9 - 3 - 2", "2 * 3 + own", "1 - 2 * 3", "own - (1 - 2) - 3"],
    ),
    "max": (
        "($e:expr) => { $e }; ($e:expr, $($t:expr),+) => {{ let own = $e; let b = "
        "max!($($t),+); if own > b { own } else { b } }}",
        ["1", "1, own, 3", "own - 1, own + 1", "-1, -2"],
    ),
    "sums": (
        "($($($e:expr),*);*) => { [$(0 $(+ $e)*),*] }",
        ["1, 2; 3", "own", "1 - 1, 2; -3, 4; 5", "1 + 1; own, own"],
    ),
    "zip": (
        "($($a:ident),*; $($b:expr),*) => {{ $(let $a = $b;)* [$($a),*] }}",
        ["x, y; 1, own", "own; own + 1", "x, x; 1, 2"],
    ),
    "call": (
        "($cb:ident!($($t:tt)*)) => { $cb!($($t)*) }; ($cb:path, $($t:tt)*) => { $cb($($t)*) }",
        ["max!(1, own)", "op!(1 + 2)", "dbl1, 3", "t, own"],
    ),
    "opts": (
        "($a:ident $(: $t:ty)? $(= $e:expr)?) => {{ #[allow(unused)] let mut $a $(: $t)? = "
        "1; $($a = $e;)? $a }}",
        ["x", "x: i32", "x: u8 = 2", "own = own + 1", "x = 3"],
    ),
    "map": (
        "($($k:expr => $v:expr),* $(,)?) => {{ let mut own = Vec::new(); $(own.push(($k, "
        "$v));)* own }}",
        ["1 => 2", "1 => own, own => 2,", "1 + 1 => -1"],
    ),
    "cross": (
        "($($a:expr),*; $b:tt) => { [$(cross!(@i $a, $b)),*] }; (@i $a:expr, [$($b:expr),*]) "
        "=> { 0 $(+ $a * $b)* }",
        ["1, 2; [3, own]", "own + 1; [2, 3]", "1, 2; []"],
    ),
    "mat": (
        "($($p:pat => $e:expr),+) => { match own { $($p => $e,)+ } }",
        [
            "1 => 2, own => own", "500 => own, _ => 2", "1 | 500 => 3, _ => 4",
            "..=3 => 1, mut own => { own += 1; own }",
        ],
    ),
    "lbl": (
        "($l:lifetime $e:expr) => { $l: loop { 'k: loop { if own > 3 { break $l $e; } break "
        "'k; } break 1; } }",
        ["'k own", "'a 3", "'a { 'k: loop { break 'k 5 } }"],
    ),
    "clos": (
        "(|$($a:ident),*| $b:expr; $($v:expr),*) => { (|$($a: i32),*| $b)($($v),*) }",
        ["|x| x + own; 1", "|own, b| own - b; own, 2"],
    ),
    "acc": (
        "([$($d:tt)*]) => { $($d)* }; ([$($d:tt)*] $h:tt $($t:tt)*) => { acc!([$h $($d)*] "
        "$($t)*) }",
        ["[] 2 - 1", "[own] + 1", "[] 3"],
    ),
    "tern": (
        "($c:expr => $a:expr ; $b:expr) => { if $c { $a } else { $b } }",
        ["own == 500 => 1; 2", "P { a: 1, b: 2 } == mk(1) => own; 3"],
    ),
    "fmt": (
        "($f:literal $(, $a:expr)*) => {{ let own = 7; let _ = own; format!($f $(, $a)*) }}",
        [
            "\"{own}\"", "\"{} {own:>5}\", own", "\"{0}{0}{1:?}\", own + 1, \"x\"",
            "\"{own}{{own}}\"", "\"\\u{7b}own\\u{7d}\"",
        ],
    ),
    "fmt2": (
        "($a:expr) => {{ let own = 7; let w = 4; format!(\"{own:>w$} {} {own}\", $a) }}",
        ["own", "format!(\"{own}\")", "{ own }"],
    ),
    "cat": (
        "($($e:expr),*) => { concat!($($e, \" \"),*) }",
        ["1, 2", "\"a\", -1, true", "stringify!(a), 1.5, 'c'", "concat!(1, 2), 3"],
    ),
    "str": (
        "($($t:tt)*) => { bare(stringify!($($t)*)) }",
        ["a + b", "own", "\"s\" 'c' 'a", "a::<B>()", "# [x] $"],
    ),
    "stre": (
        "($e:expr) => {{ let own = 1; let _ = own; bare(stringify!($e own)) }}",
        ["a + b", "own", "(1)", "-1", "{ 1 }"],
    ),
    "strt": (
        "($t:ty) => { bare(stringify!($t)) }",
        ["Vec<u8>", "&'static dyn Tr", "(u8,)", "[u8; 1 + 1]", "fn(u8) -> u8"],
    ),
}


PLACES = ['print!("{:?} ", CALL);', 'let x = CALL; print!("{:?} ", x);',
          'print!("{:?} ", (CALL, 1));', 'print!("{:?} ", { CALL });',
          'print!("{:?} ", if own > 1 { Some(CALL) } else { None });']


def munchers(rng, _number):
    """Macros that call themselves, repetitions in repetitions, callbacks, optional parts."""
    names = rng.sample(sorted(PIECES), rng.randint(2, 4))
    needed = set(names) | ({"max", "op"} if "call" in names else set())
    lines = [f"macro_rules! {n} {{ {PIECES[n][0]} }}" for n in sorted(needed) if n != "mat"]
    body = ["let own = 500i32;"]
    if "mat" in names:
        body.append(f"macro_rules! mat {{ {PIECES['mat'][0]} }}")
    if "lbl" in needed:
        lines = [line for line in lines if not line.startswith("macro_rules! lbl")]
        body.append(f"macro_rules! lbl {{ {PIECES['lbl'][0]} }}")
    for _ in range(rng.randint(2, 4)):
        name = rng.choice(names)
        opening, closing = rng.choice(["()", "[]", "{}"])
        call = f"{name}!{opening}{rng.choice(PIECES[name][1])}{closing}"
        form = rng.choice(PLACES)
        body.append(form.replace("CALL", call))
    return "\n".join(lines), "\n".join(body)


INNER_VALUES = [
    "$e", "$e + own", "$d f + $e", "{ let own = $d f; own + $e }", "$d f * 2", "own - $e",
]
INNER_GIVEN = ['own', '1', 'own + 1', '-2', '{ own }', '(|own: i32| own)(own)', '7 - own']
INNER = [
    "{ macro_rules! inn { ($d f:expr) => { VALUE } } let own = 3; inn!(GIVEN) + own }",
    "{ let own = 3; macro_rules! inn { ($d f:expr) => { VALUE } } inn!(GIVEN) + own }",
    "{ let own = $e; macro_rules! inn { ($d f:expr) => { VALUE } } let own = own + 1; "
    "inn!(own) + inn!($e) + own }",
    "{ macro_rules! inn { (own) => { 1 }; ($d own:expr) => { $d own + $e } } let own = 3; "
    "inn!(own) + inn!(GIVEN) }",
    "{ macro_rules! inn { ($d ($d f:expr),*) => { [$d ($d f + $e),*].len() as i32 } } "
    "inn!(GIVEN, 2) }",
]


def inner(rng, _number):
    """Macros that define macros, with fragments and locals of both."""
    lines, body = [], ["let own = 500i32;"]
    for at in range(2):
        text = rng.choice(INNER).replace("VALUE", rng.choice(INNER_VALUES))
        text = text.replace("GIVEN", rng.choice(["own", "1", "$e", "own + $e"]))
        definition = f"macro_rules! o{at} {{ ([$d:tt] $e:expr) => {{ {text} }} }}"
        (lines if rng.random() < .6 else body).append(definition)
        body.append(f'print!("{{}} ", o{at}!([$] {rng.choice(INNER_GIVEN)}));')
        if rng.random() < .5:
            name = rng.choice(["q", "own", "inn"])
            made = "macro_rules! $n { () => { $v }; (own) => { $v + 1 } }"
            lines.append(f"macro_rules! d{at} {{ ($n:ident, $v:expr) => {{ {made} }} }}")
            body.append(f'd{at}!({name}, {rng.choice(["1", "own", "2 + 3", "-4"])});')
            body.append(f'print!("{{}} ", {name}!() * {name}!(own));')
    return "\n".join(lines), "\n".join(body)


ALL = [scopes, paths, rules, rules, forwards, forwards, attributes, attributes, statements,
       statements, munchers, munchers, munchers, inner]
