"""The forms of the sample grammar, texts that are none, and the operators, by the rules of `specs/SampleGrammar`. A
text is matched by `$x:SPECIFIER $($t:tt $($u:tt)*)?` in edition 2024. The fragment ends before `§`, which is no part of
the text, and `$t` is the next tree. A text without `§` has no such fragment at its front, and another rule matches it.
"""
import re

from mbex import ran
from programs import spelled

PATHS = (
    "a§ b", "a::b::c§", "::a§", "::a::b§", "a<b>§", "a::<b>§", "a<b>::c<d>§", "a::<b>::c§", "a ::b§", "a§:b",
    "a§ : : b", "a§(b)", "a§!", "a<b, c>§ d", "a<'b>§", "a<b = c>§", "a<(>)>§", "a<b => c>§", "a<b -> c>§", "a<- >§ >",
    "a<->>§", "a<=>>§", "a<= >§ >", "a<b>§>", "a<b<c>>§", "a<b<c<d>>>§ >", "self§ a", "r#fn::a§", "a§", "a::b§ c",
    "Vec<u8>§ x", "a::<T>::b§", "a::b<c<d>>::e§ f", "a<b -> c>§(d)", "a::<T>§::<U>", "a§: :b", "r#let::a§",
)

NO_PATHS = (
    "", "::", "a::", "a::1", "a:: ::b", "::1", "a::(b)", "a::_", "_", "_::a", "<a>", "1", "'a", "(a)", "{a}", "+",
    "a<", "a<b", "a::<b", "a<b<c>", "a<b ->", "a<b => c", "a::<T",
)

TYPES = (
    "_§ a", "!§ a", "()§", "(a)§ b", "[a]§", "[a; 1]§ b", "&a§", "&'a b§", "&'_ a§", "&mut a§", "&'a mut b§", "&&a§",
    "& &a§", "&*const a§", "&()§", "&[a]§", "&_§", "&!§", "*const a§", "*mut a§", "*const *mut a§", "*mut &a§ b",
    "*const ()§", "a§ b", "a::b§", "::a§", "a<b>§ c", "a::<b>§", "a<b>::c§", "a<b, c>§", "a<'a>§", "a<b = c>§",
    "a<b<c>>§", "a<b<c<d>>>§", "a<b -> c>§", "a<b => c>§", "a<b >§= c>", "a<{ b > c }>§", "a<[b; 1]>§", "a§ + b",
    "a§ = b", "a§ & b", "a§(b)", "a§[b]", "a§ {}", "dyn§ a", "impl§ a", "fn§(a) -> b", "for<'a>§ b", "a§!()", "self§",
    "Self::A§", "&'a mut [u8]§ z", "_§ x", "!§x", "(a, b)§ c", "*const T§", "*mut *const u8§", "& mut &'b x§ y",
    "a::b<c>§",
)

NO_TYPES = (
    "", "{a}", "&", "&&", "&'a", "&mut", "&'a mut", "&'a 'b c", "&{a}", "*", "*a", "*const", "*mut", "*r#const a",
    "* & a", "'a", "1", '"a"', "+", "!= a", "..", "::", "a::", "a::1", "a<", "a<b", "<a as b>::c", "-> a", "!= x",
    "*T",
)

BLOCKS = (
    "{}§", "{a}§ b", "{a}§ {b}", "{ {} }§", "{ ; }§ ;", "{ a b }§ c", "{{}}§", "{ ; }§ { }", "{1}§ + 2",
)

NO_BLOCKS = (
    "", "()", "[a]", "a", "a {}", "unsafe {}", "const {}", "async {}", "'a: {}", ";",
)

ATTRIBUTES = (
    "a§", "a§ b", "a::b§", "::a§", "a(b)§", "a[b]§", "a{b}§", "a(b)§ (c)", "a::b(c)§", "a<b>(c)§", "unsafe(a)§",
    "a = 1§", "a = b + c§ d", 'a = "b"§', "a = -1§", "a = b!()§", "a§ == b", "a§ += b", "a§ => b", "a§ =", "a§ = let",
    "a§ = ,", "a§, b", "a§; b", "a::b[c]§ d", "a {}§", 'a = "b" + c§',
)

NO_ATTRIBUTES = (
    "", "(a)", "[a]", "= 1", "1", '"a"', "_", "# a", "a = b +", "a = b.c +", "a::", "a<b", "a = 1 +",
)

PATTERNS = (
    "_§ a", "1§", "1.5§", "-1§", "-1.5§", "'a'§", '"a"§', "true§", "false§", "&a§", "&mut a§", "&&a§", "&_§", "&-1§",
    "&(a)§", "ref a§", "mut a§", "ref mut a§", "mut ref a§", "mut 1§", "ref§", "mut§", "ref§ | a", "&ref§",
    "ref a::b(c)§", "ref _§", "()§", "(a, b)§ c", "[a, ..]§", "a§", "a::b§", "::a§", "a(b)§", "a{b}§", "a::b(c)§",
    "a::b{c}§ d", "a<b>(c)§", "a§[b]", "a(b)§(c)", "a{b}§{c}", "a§ | b", "a§ @ b", "a§ if b", "a§ => b", "1§..2",
    "a§..", "self§", "box§ a", "r#ref§ a", "r#mut§ a", "const {}§", "_§ x", "'a'§ | b", "&&_§", "a::B { c }§ d",
    "A(1)§ | b", "A§[1]",
)

NO_PATTERNS = (
    "", "|", "| a", "-", "- a", "- -1", "-(1)", "..", "..1", "!", "! a", "&", "&&", "&mut", "& 'a b", "{a}", "'a",
    "*a", "+", "a::", "a::1", "::", "<a>::b", "a<b", "- x",
)

ALTERNATIVES = (
    "a§", "| a§", "a | b§ c", "| a | b§", "a | b | c§", "_ | _§", "1 | -1§", "a | &b§", "a | (b)§", "a(b) | c{d}§",
    "ref a | mut b§", "a§ || b", "a§ |= b", "a§ if b", "a§ => b", "(a | b) | c§", "a | b§ || c", "a | 1§..2",
    "1 | -2 | _§", "Some(x) | None§ => y", "(a) | [b] | &c | d§", "ref a | b§",
)

NO_ALTERNATIVES = (
    "", "|", "a |", "a | |", "| |", "a | b |", "| a | + b", "a | -", "a | ..", "|| a",
)

# The matcher refuses `r#let` at the front itself; after a sign, and of a statement, it is the grammar's.
EXPRESSIONS = (
    "1§", "1.5§", '"a"§', "'a'§", "true§", "false§", "_§", "true§::a", "1§ 2", "()§", "(a)§ b", "[a]§", "{a}§ b",
    "{}§ {}", "(a)(b)§", "{a}(b)§", "const { 1 }§ a", "unsafe { a }§ b", "const {}.a§", "unsafe {}?§", "const§;",
    "unsafe (a)§", "unsafe§ fn a() {}", "r#const§ {}", "r#unsafe§ {}", "a§", "a::b§", "::a§ b", "::a::b§", "a::<b>§",
    "a::<b>::c§", "self.a§", "Self::A§", "super::a§", "crate::a§", "a!()§", "a![]§", "a!{}§", "a::b!(c)§", "a!()§!()",
    "a§ !", "a§ ! b", "a!(b).c§", "a?§", "a??§", "a.b§", "a.0§", "a.0.1§", "a.b::<c>§", "a.b::<c>(d)§", "a.b§::c",
    "a.await§", "a(b)§", "a[b]§", "a§{b}", "a()()[]?§", "a.b.c§", "a.b(c).d?§", "a§.(b)", "a§._", "a.r#b§", "a§..b",
    "a§..", "a§..=b", "a§...b", "-a§", "-r#let§ a", "!a§", "*a§", "&a§", "&mut a§", "--a§", "- -a§", "!!a§", "**a§",
    "&&a§", "&&mut a§", "&mut mut§", "&mut &a§", "-!*&a§", "&raw§ a", "*const {}§", "-1§", "!true§", "-a.b?§",
    "&a[b]§", "break§", "return§", "continue§", "break§;", "break§, a", "break§ => a", "break§..", "break 'a§",
    "break '_§", "return 'a§", "continue 'a§", "break 'a§: b", "break a§", "return 1§", "continue (a)§", "break {a}§",
    "break [a]§", 'break "a"§', "break true§", "break _§", "break ::a§", "return ::a::b§", "continue ::a§",
    "break -1§", "return -1§", "continue -a§", "break !a§", "return !a§", "continue !a§", "break *a§", "return *a§",
    "continue *a§", "break &a§", "return &a§", "continue &a§", "break **a§", "break &&a§", "break &mut a§",
    "break 'a b§", "break 'a (b)§", "break 'a -b§", "return 'a ::b§", "break 'a§;", "break break§", "break return a§",
    "break a + b§", "break a = b§", "break const {}§", "break unsafe {}§", "break a!()§", "break?§", "break.a§",
    "break -= a§", "break != a§", "break == a§", "break + a§", "break && a§", "break | a§", "break < a§", "r#break§ a",
    "-break a§", "a + break b§", "a + break§", "a = return§", "if§ a {}", "match§ a {}", "while§ a {}", "loop§ {}",
    "for§ a in b {}", "async§ {}", "move || a§", "a§ {}", "a§ as b", "a§, b", "a§; b", "a§: b", "a§ -> b", "a§ => b",
    "a§ <- b", "a§ @ b", "a§ # b", "a + b * c§", "a + b * c == d && e§", "a = b = c§", "a += 1§ b", "a < b§ {}",
    "1 + 2§", "a.b.c(d)[e]?§", "-!*&mut x§", "break 'foo bar§,", "future.await§,", "const { 1 }§,", "unsafe§ x",
    "a < b > c§", "a::<b>(c)§", "a && b || !c§", "a &&& b§", "vec![1, 2] + 3§", "1.0.0§", "a.1.b§", "return -1§;",
    "break = 1§", "_ = true§", "if§ a { b }", "a§ as u8", "x >>= 1 << 2§", "() + {}§",
)

NO_EXPRESSIONS = (
    "", "+", "+ a", "a +", "a + +", "a + let", "a + ;", "a + 'b", "a =", "a &&", "a ||", ". a", "..", "..a", "? a",
    ", a", "; a", "=> a", ": a", "'a", "'a: a", "let", "let a = b", "-", "!", "*", "&", "&&", "&mut", "-;", "- + a",
    "&'a b", "!= a", "-= a", "-> a", "*= a", "&= a", "| a", "|a| b", "|| a", "break -", "return !", "continue &",
    "break *", "break ::", "break let", "break - + a", "break *= a", "break &= a", "break 'a let", "break 'a ::",
    "return a +", "break a::", "::", "a::", "a::1", "::1", "a::<b", "a::b::", "a.b::<c", "<a>::b", "a<b>", "a < b >",
    "a + b::", "x +", "break !",
)

STATEMENTS = (
    "let a§;", "let a = 1§;", "let a: b§;", "let a: b = c§;", "let _ = a§", "let a | b = c§", "let | a = b§",
    "let (a, b) = c§", "let &a = b§", "let mut a = b§", "let ref a§", "let a§ += b", "let a§ == b",
    "let a = b§ else {}", "let a: &'b c = d§", "let a: b<c> = d§", "let a: b<c>= d§", "let a: b<c>§ == d", "let a§: &",
    "let a§: = b", "let a§ = let", "let a: _§", "let a: !§", "let a: (b, c)§", "let a::b(c) = d§", "let a { b } = c§",
    "let 1 = a§", "let -1 = a§", "let a = break§;", "let a = b + c§", "use a;§ b", "const A: b = c;§",
    "static A: b = c;§", "static mut A: b = c;§", "type A = b;§", "fn a() {}§ b", "struct A;§", "struct A {}§",
    "struct A(b);§", "enum A { b }§ c", "enum A {}§", "trait A {}§", "trait A: B { c }§ d", "impl A {}§",
    "impl A for B {}§", "mod a;§", "mod a {}§", "extern crate a;§", 'extern "C" {}§', "pub fn a() {}§",
    "pub(crate) use a;§", "pub(self) struct A;§", "pub(super) enum A {}§", "pub(in a) trait A {}§ b",
    "pub const A: b = c;§", "const A: b = {};§", "const {}§", "const { a }.b§", "const {} + a§", "unsafe { a }§ b",
    "unsafe§ fn a() {}", "async§ fn a() {}", "union§ A {}", "macro_rules§! a {}", "r#use§ a;", "r#let§ a", "r#let§",
    "a + b§;", "a§;", "a = b§;", "return§;", "{a}§ b", "break§", "pub§ a", "pub(crate)§ a", "pub(a)§", "a!()§",
    "a! {}§ b", "let x = 1§;", "let a | b: u8 = c§", "let x§", "let x§: = 1", "fn f() {}§ g", "const { 1 } + 2§",
    "const A: u8 = 1;§ b", "pub use a::b;§ c", "pub§ x", "x.y()§", "r#fn§ f() {}",
)

NO_STATEMENTS = (
    "", ";", "let", "let;", "let = a", "let |", "let a |", "let a = b +", "let a: b<", "let a: b::", "let 'a", "+ a",
    "use a", "use a {}", "const A", "static A {}", "type A = b", "fn a()", "struct A", "struct A(b)", "enum A",
    "trait A", "impl A", "mod a", "extern crate a", "pub fn a()", "pub use a", "let = 1", "struct S",
)

ITEMS = (
    "use a;§", "use a::{b, c};§ d", "use a;§ ;", "const A: b = { c };§", "const {};§", "static A: [b; 1] = [c];§",
    "static mut A: b = c;§ d", "type A<B> = c;§", "fn a();§", "fn a() {}§ {}", "fn a() -> b { c }§ d",
    "fn a(b: { c }) {}§", "struct A;§", "struct A(b);§", "struct A { b }§ ;", "struct A<B> { c }§", "enum A;§",
    "enum A { B }§ c", "enum A<B> where C: D {}§", "trait A { b }§", "trait A = b;§", "trait A: B {}§ c", "impl A {}§",
    "impl A for B {}§ c", "mod a;§", "mod a { b }§ c", "extern crate a;§", "extern { a }§", 'extern "C" { a }§',
    "extern fn a() {}§ b", "pub use a;§", "pub const A: b = c;§", "pub static A: b = c;§", "pub type A = b;§",
    "pub fn a() {}§", "pub struct A;§", "pub enum A {}§", "pub trait A {}§", "pub impl A {}§", "pub mod a;§",
    "pub extern {}§", "pub(self) fn a() {}§", "pub(crate) struct A { b }§", "pub(super) enum A {}§",
    "pub(in a::b) static A: c = d;§", "pub(crate) trait A {}§", "use a::b;§ c", "pub(crate) fn f() -> u8 { 1 }§ x",
    "struct S;§", "struct S(u8);§", "struct S { a: u8 }§ b", "const A: u8 = { 1 };§", "type A = [u8; 2];§",
    "impl A for B {}§", 'extern "C" { }§', "mod m { fn f(); }§",
)

NO_ITEMS = (
    "", ";", "a", "a;", "{}", "let a;", "unsafe fn a() {}", "async fn a() {}", "union A {}", "macro a {}", "pub",
    "pub;", "pub a;", "pub pub fn a() {}", "pub(a) fn b() {}", "pub[crate] fn a() {}", "use a", "use a {}", "const A",
    "const A {}", "static A {}", "type A = b", "type A {}", "fn a()", "struct A", "struct A(b)", "enum A", "trait A",
    "impl A", "mod a", "extern crate a", "r#fn a() {}", "r#pub fn a() {}", "pub r#fn a() {}", "crate fn a() {}",
    "fn f()", "static mut A: u8 = 1", "x;",
)

VISIBILITIES = (
    "§", "pub§", "pub§ a", "pub(crate)§ a", "pub(self)§", "pub(super)§ (a)", "pub(in a)§", "pub(in a::b)§ c",
    "pub(in)§", "pub(self, a)§", "pub(crate)§(self)", "pub§(a)", "pub§()", "pub§(1)", "pub§((self))", "pub§(r#crate)",
    "pub§(r#self)", "pub§(, self)", "pub§[self]", "pub§[crate]", "pub§{self}", "pub§ pub", "pub§::a", "§crate",
    "§(self)", "§r#pub", "§a pub", "§1", "§;", "pub§ x", "pub(crate)§ x", "pub(in a::b)§ x", "pub(super)§",
    "pub§(a) x", "§r#pub x", "§(crate)",
)

# The operators between two operands. No operand may be missing after them.
OPERATORS = (
    "+", "-", "*", "/", "%", "^", "&", "|", "&&", "||", "==", "!=", "<", ">", "<=", ">=", "<<", ">>", "=", "+=", "-=",
    "*=", "/=", "%=", "^=", "&=", "|=", "<<=", ">>=",
)

# Tokens that end the expression before them.
NO_OPERATORS = (
    "=>", "->", "<-", "..", "..=", "...", ":", ";", ",", "!", "@", "#", "$", "as", "~",
)

# A specifier, and a chain of a million links. A recursion would need a call on the stack for each link.
CHAINS = (
    ("ty", "«1000000 &»x§"),
    ("ty", "«1000000 &'a mut »x§"),
    ("ty", "«1000000 *const »(x)§"),
    ("ty", "«1000000 &»"),
    ("ty", "x«1000000 <»"),
    ("ty", "x<«1000000 -> »>§"),
    ("path", "«1000000 x::»x§"),
    ("path", "«1000000 x::<y>::»x§"),
    ("pat_param", "«1000000 &»x§"),
    ("pat_param", "«1000000 &mut »-1§"),
    ("pat_param", "«1000000 ref »§"),
    ("pat_param", "mut§ «1000000 &»"),
    ("pat_param", "«1000000 &»"),
    ("pat", "«1000000 &»x§"),
    ("pat", "«1000000 | ref x »§"),
    ("expr", "«1000000 -»x§"),
    ("expr", "«1000000 ! »x§"),
    ("expr", "«1000000 *&mut »x§"),
    ("expr", "«1000000 &»"),
    ("expr", "«1000000 x + »x§"),
    ("expr", "«1000000 x = »"),
    ("expr", "«1000000 break »§"),
    ("expr", "«1000000 return 'a »x§"),
    ("expr", "«1000000 continue -»x§"),
    ("expr", "«1000000 x * break »() = x§"),
    ("expr", "«1000000 break »let"),
    ("expr", "x«1000000 .x»§"),
    ("expr", "x«1000000 ()?»§"),
    ("stmt", "let «1000000 &»x: &u8 = x§"),
    ("meta", "x = «1000000 x - »x§"),
    ("item", "use «1000000 x, »;§"),
)

# A specifier, and its texts.
FORMS = (
    ("path", PATHS),
    ("path", NO_PATHS),
    ("ty", TYPES),
    ("ty", NO_TYPES),
    ("block", BLOCKS),
    ("block", NO_BLOCKS),
    ("meta", ATTRIBUTES),
    ("meta", NO_ATTRIBUTES),
    ("pat_param", PATTERNS),
    ("pat_param", NO_PATTERNS),
    ("pat", ALTERNATIVES),
    ("pat", NO_ALTERNATIVES),
    ("expr", EXPRESSIONS),
    ("expr", NO_EXPRESSIONS),
    ("stmt", STATEMENTS),
    ("stmt", NO_STATEMENTS),
    ("item", ITEMS),
    ("item", NO_ITEMS),
    ("vis", VISIBILITIES),
)


def wanted(text):
    """The rule that reads the text, and the byte where the first tree begins that the fragment leaves, if any."""
    taken, mark, left = text.partition("§")
    if not mark:
        return "arm 1", None
    blank = len(left) - len(left.lstrip())
    return "arm 0", len(taken.encode()) + blank if left.strip() else None


def found(out):
    """The same, as it is printed."""
    arm, _, *trees = out.splitlines()
    first = re.search(r" 1@(\d+)\.\.", trees[0]) if trees else None
    return arm, int(first[1]) if first else None


def is_taken(program, table, specifier, text):
    definition = f"($x:{specifier} $($t:tt $($u:tt)*)?) => {{$($t)?}}; ($($t:tt)*) => {{}}"
    run = ran(program, definition, text.replace("§", ""))
    got = found(run.out) if (run.status, run.err) == (0, "") else run
    program.check(table, (specifier, text), got, wanted(text))


def test(program):
    for specifier, texts in FORMS:
        for text in texts:
            is_taken(program, "FORMS", specifier, text)
    for operator in OPERATORS:
        is_taken(program, "OPERATORS", "expr", f"a {operator} b§ c")
        is_taken(program, "OPERATORS", "expr", f"a {operator}")
    for operator in NO_OPERATORS:
        is_taken(program, "NO_OPERATORS", "expr", f"a§ {operator} b c")
        is_taken(program, "NO_OPERATORS", "expr", f"a§ {operator}")
    for specifier, text in CHAINS:
        is_taken(program, "CHAINS", specifier, spelled(text))
