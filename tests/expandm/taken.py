"""The fragments of each kind at the front of Rust texts, by rustc 1.95 and the Rust Reference. A text is matched by
`$x:SPECIFIER $($t:tt)*`. The fragment ends before `§`, which is no part of the text. A text without `§` has no such
fragment at its front. In rust-analyzer's dialect another rule matches it.
"""
from expandm import defined

# In the edition of 2021.
PATHS = (
    "a::b::c§ + d",
    "::a::b§, c",
    "crate::a<'b, C, { 1 }>::d<-1>§ e",
    "Vec<Vec<u8>>§= a",
    "Fn(u8) -> Vec<u8>§ where",
    "a::b§!(c)",
    "a§ <= b",
    "a§::{b}",
    "a::",
    "a < b",
    "<A as B>::C",
    "fn",
)

TYPES = (
    "&'a mut [u8; 4]§ = a",
    "*const *mut u8§, a",
    "(u8, u16)§ as a",
    "dyn A + B + 'a§ => c",
    "impl for<'a> Fn(&'a u8) -> u8 + Copy§;",
    "for<'a> unsafe extern \"C\" fn(&'a u8) -> &'a u8§ { a }",
    "<<A as B>::C as D>::E<F>§ | a",
    "A<B<C>>§> d",
    "a![u8]§ where",
    "!§ where",
    "_§",
    "A§ where A: B",
    "A§ != B",
    "A§.b",
    "&",
    "1",
)

EXPRESSIONS = (
    "a + b * -c§ => d",
    "a as usize <= b§, c",
    "a as usize < b",
    "a as A<B>> c§;",
    "&raw const a.b[c](d)?.e::<F>()§ g",
    "a.0.1.b§ c",
    "A { b }.c + d§, e",
    "a = b..c = d§",
    "a..b§ = c",
    "a..§ => b",
    "if A { b } == c { d }§ else { e }",
    "if a { b } else if let C | D = e { f } .g()§",
    "match return A { b } { c => d }§ e",
    "'a: for (b, c) in 0.. { d }§ e",
    "|a, &b: &u8| -> u8 { a } (c)§ d",
    "move || a = b§, c",
    "return |a| ..b§; c",
    "break 'a { b }§ c",
    "<A as B>::c::<D>(e)§ f",
    "a ??§ => b",
    "a.fn",
    "use || a",
)

PATTERNS = (
    "Some(a) | None§ = b",
    "| a | b§ if c",
    "&mut (a, ref b)§ in c",
    "a @ 1..=2 | 4..§ => b",
    "A::<B>::C { d, .. }§ if e",
    "-1..A::B§ => c",
    "[a, b @ ..]§ = c",
    "mut a§: u8",
    "a!() | b§",
    "box a§",
    "..=1",
    "a |",
)

PARAMETERS = (
    "Some(a)§ | None",
    "a @ b§ | c",
    "| a",
)

STATEMENTS = (
    "let a: Vec<Vec<u8>>= b§; c",
    "let Some(a) = b else { c }§; d",
    ";§ a",
    "{ a }§ - b",
    "{ a }.b - c§;",
    "if a { b } else { c }§ (d)",
    "async { a } (b)§;",
    "a!{}§ + b",
    "a!{}? + b§;",
    "a!() + b§;",
    "#[a] struct B;§ c",
    "pub(crate) const fn a() {}§ b",
    "const { a }§ b",
    "union + a§;",
    "unsafe impl A for B {}§ c",
    "macro_rules! a { b }§ c",
    "safe§ fn a() {}",
    "let = a",
)

BLOCKS = (
    "{ a }§ b",
    "unsafe { a }",
    "(a)",
)

METAS = (
    "a::b(c)§ d",
    "a = b + 1§, c",
    "derive[A]§ b",
    "unsafe(a)§ b",
    "a§ == b",
    "a§!",
    "a =",
    '"a"',
)

ITEMS = (
    '#[a] pub const unsafe extern "C" fn b<T: ?Sized>(c: T) -> D where T: E, {}§ f',
    "struct A<T>(T) where T: B;§ c",
    "struct A<const N: usize = { 1 }> { b: u8 }§ c",
    "enum A { B = 1 }§ c",
    "union A { b: u8 }§ c",
    "type A<T> = fn(T) -> dyn B;§ d",
    "const _: () = { a };§ b",
    "static mut A: u8 = 1;§ b",
    "unsafe auto trait A: B + C {}§ d",
    "impl<T> ::a::B<T> for &'c mut D {}§ e",
    "impl <T as X>::Y {}§ a",
    "impl !A for B {}§ c",
    "mod a;§ b",
    "use a::{b, c::*};§ d",
    "pub use ::a as _;§ b",
    "extern crate self as a;§ b",
    'unsafe extern "C" { fn a(); }§ b',
    "macro_rules! a (b);§ c",
    "a::b! { c }§ d",
    "default fn a();§ b",
    "pub a!{}",
    "use a b;",
    "fn a",
    "let a = b;",
)

VISIBILITIES = (
    "pub§ a",
    "pub(crate)§ a",
    "pub(self)§(a)",
    "pub(in super::a)§ b",
    "pub§ (u8, u16)",
    "pub§(crate::A) b",
    "pub§() a",
    "pub§[crate]",
    "§crate fn",
    "§(u8)",
)

# Texts as they are read in the edition of 2015, and as they are from 2018 on.
EXPRESSIONS_2018 = (
    ("async { a }.b§ c", "async { a }.b§ c"),
    ("async§ move { a } b", "async move { a }§ b"),
    ("async || a§", "async || a§"),
    ("async + a§, b", "async + a, b"),
    ("try!(a)§ b", "try!(a) b"),
    ("match try { a }§ { b => c } d", "match try { a } { b => c }§ d"),
    ("await.b§ c", "await.b c"),
)

TYPES_2018 = (
    ("dyn::A§ = b", "dyn::A§ = b"),
    ("&dyn§ = b", "&dyn§ = b"),
    ("dyn A + B§ = c", "dyn A + B§ = c"),
)

STATEMENTS_2018 = (
    ("try { a } - b§;", "try { a }§ - b;"),
)

ITEMS_2018 = (
    ("async fn a() {} b", "async fn a() {}§ b"),
    ("struct dyn;§ a", "struct dyn; a"),
)

# Texts as they are read in the edition of 2021, and as they are in 2024.
EXPRESSIONS_2024 = (
    ("gen { a }§ b", "gen { a }§ b"),
    ("gen + a§, b", "gen + a, b"),
    ("match gen { a => b }§ c", "match gen { a => b } c"),
    ("async gen { a } b", "async gen { a }§ b"),
)

ITEMS_2024 = (
    ("gen fn a() {} b", "gen fn a() {}§ b"),
)

PATTERNS_2024 = (
    ("gen§ = a", "gen = a"),
)
IN_2021 = (
    ("path", PATHS),
    ("ty", TYPES),
    ("expr", EXPRESSIONS),
    ("pat", PATTERNS),
    ("pat_param", PARAMETERS),
    ("stmt", STATEMENTS),
    ("block", BLOCKS),
    ("meta", METAS),
    ("item", ITEMS),
    ("vis", VISIBILITIES),
)

# An edition and the one before it.
SINCE = (
    (2015, 2018, "expr", EXPRESSIONS_2018),
    (2015, 2018, "ty", TYPES_2018),
    (2015, 2018, "stmt", STATEMENTS_2018),
    (2015, 2018, "item", ITEMS_2018),
    (2021, 2024, "expr", EXPRESSIONS_2024),
    (2021, 2024, "item", ITEMS_2024),
    (2021, 2024, "pat_param", PATTERNS_2024),
)


def squeezed(text):
    return "".join(text.split())


def is_taken(program, edition, specifier, text):
    """The rest of the text is emitted after `left`, or the other rule emits `none`."""
    rules = f"m {{ ($x:{specifier} $($t:tt)*) => {{ left($($t)*) }}; ($($t:tt)*) => {{ none }} }}"
    _, mark, left = text.partition("§")
    whole = text.replace("§", "")
    ran = program.run(
        ["--once", "--dialect", "rust-analyzer", "--edition", str(edition), "a.rs"], {"a.rs": defined(rules, f"fn f() {{ m! {{ {whole} }} }}")},
    )
    want = defined(rules, f"fn f() {{ left({left}) }}" if mark else "fn f() { none }")
    got = ran.status, squeezed(ran.out), ran.err
    program.check("taken", (edition, specifier, text), got, (0, squeezed(want), ""))


def test(program):
    for specifier, texts in IN_2021:
        for text in texts:
            is_taken(program, 2021, specifier, text)
    for before, since, specifier, texts in SINCE:
        for old, new in texts:
            is_taken(program, before, specifier, old)
            is_taken(program, since, specifier, new)
