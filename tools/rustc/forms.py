"""Forms of Rust by which tools/rustc/programs.py writes programs. A form is text with slots.

`~i~` is an expression of type i32, and `~i!~` is such an expression as an operand. `~n1~` is a
local that the form binds, and `~u1~` is its use. `~*ints~` is a list of the shape LISTS["ints"]. A
form that begins with `low ` needs parentheses as an operand. SLOTS says what each slot is.
"""

SLOTS = {
    "i": ("expr", "I32"), "b": ("expr", "BOOL"), "k": ("expr", "CONST"), "s": ("expr", "TEXT"),
    "c": ("expr", "CLOSURE"), "r": ("expr", "RANGE"), "P": ("expr", "STRUCT"),
    "O": ("expr", "OPTION"), "p": ("pat", "PAT"), "q": ("pat", "BINDER"), "t": ("ty", "INT_TYPE"),
    "T": ("ty", "TYPE"), "d": ("ty", "DYN"), "l": ("literal", "LITERAL"), "h": ("path", "PATH"),
    "m": ("meta", "META"), "v": ("vis", "VIS"), "w": ("expr", "UNIT"), "z": ("literal", "STRING"),
}

I32 = [
    "~l~", "~l~", "-~l~", "~x~", "~x~", "~x~", "~x~", "low ~i!~ + ~i!~", "low ~i!~ - ~i!~",
    "low ~i!~ * ~i!~", "low ~i!~ | ~i!~", "low ~i!~ & ~i!~", "low ~i!~ ^ ~i!~", "low ~i!~ << 1",
    "low -~i!~", "low !~i!~", "low ~i!~ as ~t~", "low ~i!~ as i64 as i32", "low ~i!~ % 7",
    "~i!~.pow(2)", "~i!~.max(~i~)", "~i!~.abs()", "~i!~.wrapping_add(~i~)",
    "~i!~.clone().signum()", "t(~i~)", "t(~i~)", "crate::t(~i~)", "i32::max(~i~, ~i~)",
    "if ~b~ { ~i~ } else { ~i~ }", "if ~b~ ~g~ else ~g~", "match ~i~ { ~p~ => ~i~, _ => ~i~ }",
    "match ~i~ { ~n1~ if ~u1~ > ~i!~ => ~i~, _ => ~i~ }", "match ~i~ { ~*arms~, _ => ~i~ }",
    "match ~i~ { ~n1~ @ ~p!~ => ~i~ + ~u1~, _ => 0 }", "match ~i~ { ~*garms~, ~n~ => ~i~ }",
    "match (~i~, ~b~) { (~p~, true) => ~i~, (~q~, _) => ~i~ }",
    "match &~i!~ { &~p!~ => ~i~, _ => ~i~ }", "match ~P!~ { P { a, .. } => ~i~ }",
    "match ~P!~ { P { a: ~p~, b } => ~i~, _ => ~i~ }",
    "match [~i~, ~i~] { [~p~, ..] => ~i~, [~q~, _] => ~i~ }",
    "match ~O~ { Some(~q~) => ~i~, None => ~i~ }", "if let ~p~ = ~i~ { ~i~ } else { ~i~ }",
    "if let Some(~q~) = ~O~ ~g~ else ~g~", "~g~", "~g~", "~g~", "{ let ~q~ = ~i~; ~i~ }",
    "{ let mut ~n1~ = ~i~; ~u1~ += ~i~; ~u1~ }", "{ let ~n1~ = ~i~; ~i!~ + ~u1~ }",
    "{ let ~n~: ~t~ = ~i~; ~i~ }", "{ let ~n1~ = ~i~; let ~n2~ = ~i~; ~u1~ - ~u2~ }",
    "{ let P { a, b: ~q~ } = ~P~; ~i~ }", "{ let (~q~, ~q~) = (~i~, ~i~); ~i~ }",
    "unsafe { ~stmts~ ~i~ }", "loop { break ~i~ }", "'k1: { if ~b~ { break 'k1 ~i~; } ~i~ }",
    "'k1: loop { break 'k1 ~i~; }", "~'1~: loop { if ~b~ { break ~'1~ ~i~; } ~stmts~ break ~i~; }",
    "~c!~(~i~)", "~c!~(~i~)", "apply(~c~, ~i~)", "~O!~.map(~c~).unwrap_or(~i~)",
    "~O!~.unwrap_or(~i~)", "(~i~, ~b~).0", "(~i~, ~i~).1", "[~i~, ~i~][1]",
    "low [~*ints~].len() as i32", "vec![~*ints~].iter().sum::<i32>()", "[~i~; 3][1]",
    "sum(&[~*ints~])", "sum(&[~*rows~].concat())", "~P!~.a", "~P!~.b", "~P!~.total()",
    "low (~r~).take(9).count() as i32", "~r!~.take(9).sum::<i32>()",
    "low ~r!~.take(9).filter(|~n1~| *~u1~ > ~i!~).count() as i32", "low ~b!~ as i32",
    "low ~s!~.len() as i32", "low size::<~T~>() as i32", "low size::<&~T!~>() as i32",
    "low std::mem::size_of::<~T~>() as i32", "low Vec::<~T~>::new().len() as i32", "low *&~i!~",
    "low *&mut ~i!~", "(|| { return ~i~; })()", "(|| -> ~t~ { if ~b~ { return ~i~ } ~i~ })()",
    "(|| Some(~O!~? + ~i!~))().unwrap_or(~i~)", "D(~i~).get()",
    "{ let _g = D(~i~); D(~i~).get() }", "match D(~i~).get() { ~q~ => ~i~ }", "~h~::get(~i~)",
    "<~t~>::max(~i~, ~i~)", "<~t~ as Same>::same(~i~)", "Same::same(~i~)", "i32::from(~i~ as u8)",
    "{ const ~K1~: ~t~ = ~k~; ~K1~ }", "{ fn f9(~n1~: ~t~) -> ~t~ { ~u1~ * 2 } f9(~i~) }",
    "{ struct ~K1~(i32); let ~K1~(~n~) = ~K1~(~i~); ~i~ }", "{ ~*lets~ ~i~ }",
    "{ let mut ~n1~ = 0i32; ~*adds~ ~u1~ }", "{ let f = ~c~; f(~i~) + f(~i~) }", "{ ~stmts~ ~i~ }",
    "low ~g!~ - 1", "low ~i!~ + { ~i~ }", "(~*ors~,).0", "~*chain~ { ~i~ }",
    "match ~l~ { ~*ors2~ => ~i~, _ => ~i~ }", "add!(~i~, ~i~)", "~i!~.min(~i~).max(~i~)",
    "low [~i~, ~i~, ~i~][1..].len() as i32", "low [1, 2, 3, 4][~r2~].len() as i32", "dbl(&~i!~)",
    "low *Box::new(~i~)", "{ static ~K1~: ~t~ = ~k~; ~K1~ }", "low ~K~ as i32", "i32::MAX",
    "std::cmp::max(~i~, ~i~)", "w::<{ ~k~ }>()", "w::<~l~>()", "w::<{ ~l~ }>()",
    "match ~b~ { true => ~i~, false => ~i~ }", "{ #[~m~] let ~n1~ = ~i~; ~u1~ }",
    "match ~i~ { #[~m~] ~p~ => ~i~, _ => ~i~ }", "sum(&[#[~m~] ~i!~, ~i~])",
    "P { a: ~i~, ..~P!~ }.b",
]
BOOL = [
    "true", "false", "low ~i!~ < ~i!~", "low ~i!~ == ~i!~", "low ~i!~ >= ~i!~", "low ~b!~ && ~b!~",
    "low ~b!~ || ~b!~", "low !~b!~", "matches!(~i~, ~p~)", "matches!(~O~, Some(~p~) if ~b~)",
    "~O!~.is_some()", "low ~P!~ == ~P!~", "{ ~b~ }", "low ~i!~ as u8 == 3",
    "low (~i!~ as i64) < 5", "~r!~.contains(&~i!~)", "~s!~.is_empty()", "{ let ~q~ = ~i~; ~b~ }",
    "if ~b~ { ~b~ } else { ~b~ }", "(|~q~: i32| ~b~)(~i~)", "low &~i!~ == &~i!~",
]
CONST = [
    "~l~", "~l~", "low ~k!~ + ~k!~", "low -~k!~", "~K~", "low ~k!~ as i64 as i32", "~k!~.pow(2)",
    "{ ~k~ }", "if true { ~k~ } else { ~k~ }", "(~k~, 1).0", "[~k~, ~k~][1]",
    "match ~k~ { ~p~ => 1, _ => 2 }", "low ~k!~ << 1",
]
TEXT = [
    "~z~", "format!(~F~)", "format!(~F~)", "String::from(~z~)", "concat!(~z~, 1)",
    "~i!~.to_string()", "if ~b~ { ~z~ } else { \"no\" }.to_string()",
    "format!(\"{}{:?}\", ~i~, ~b~)", "format!(\"{:?}\", ~P~)", "format!(\"{:?}\", (~i~, ~O~))",
    "format!(~z~)", "format!(\"{0} {0:?} {1}\", ~i~, ~s~)", "{ let ~n~ = ~i~; format!(~F~) }",
    "{ let ~n1~ = ~i~; format!(\"{} {}\", ~u1~, ~s~) }",
]
CLOSURE = [
    "low |~n1~| ~u1~ + ~i!~", "low |~q~: i32| ~i~", "low |~q~| ~g~",
    "low move |~n1~: ~t~| -> ~t~ { ~u1~ - ~i!~ }", "low |_: i32| ~i~", "dbl1", "dbl1",
    "{ |~n1~: i32| ~u1~ * ~i!~ }", "low |~n1~| { let ~n2~ = ~u1~; ~u2~ + ~i!~ }",
]
RANGE = ["low ~i!~..~i!~", "low 0..=~i!~", "low 1..4i32", "low ~i!~..=3"]
STRUCT = [
    "p", "low P { a: ~i~, b: ~i~ }", "low P { a: ~i~, ..p }", "low P { a, b }",
    "low P { a, b: ~i~ }", "mk(~i~)", "{ ~P~ }", "{ let a = ~i~; P { a, b: ~i~ } }",
    "low P { ~*fields~ }",
]
OPTION = [
    "Some(~i~)", "Some(~i~)", "None::<~t~>", "q", "~O!~.or(Some(~i~))",
    "if ~b~ { Some(~i~) } else { None }", "~r!~.next()",
    "Some(~i~).filter(|~n1~| ~b~ && *~u1~ > 0)", "match ~i~ { ~p~ => Some(~i~), _ => None }",
]
PAT = [
    "~l~", "-~l~", "~q~", "low ~l~..=~l~", "low 1..=50", "low -5..", "low ..=9", "low 1 | 20",
    "low ~l~ | -1", "_", "~K~", "~n~ @ ~p!~", "low | 5 | 6", "(~p~)", "~h~::ONE", "low 0 | ~p!~",
    "low ~p!~ | ~l~",
]
BINDER = ["~n~", "~n~", "~n~", "low mut ~n~", "_", "(~q~)", "~n~ @ _", "low ref ~n~"]
INT_TYPE = [
    "i32", "i32", "std::primitive::i32", "I", "<u8 as Same>::T", "<~T~ as Same>::T", "Id<i32>",
    "(i32)",
]
TYPE = [
    "u8", "(u8, ~T~)", "[~T~; 2]", "[u8; { ~k~ } as usize & 3]", "Option<~T~>", "&'static ~T!~",
    "Vec<~T~>", "fn(~T~) -> ~T~", "Box<~d~>", "&'static ~d!~", "*const ~d!~", "std::rc::Rc<~T~>",
    "~t~", "P", "Id<~T~>", "[~k~; 0].len", "()",
]
TYPE.remove("[~k~; 0].len")
DYN = [
    "low dyn Tr", "low dyn Tr + Send", "low dyn Tr + Send + 'static",
    "low dyn Fn(~T~) -> ~T~ + Send",
]
LITERAL = ["1i32", "2i32", "3i32", "7i32", "20i32", "0x1f_i32", "5i32", "300i32", "-4i32", "1"]
STRING = ["\"x\"", "\"two words\"", "r\"raw\"", "\"\\n\\\"\"", "r#\"a\"b\"#", "\"\\u{41}\""]
PATH = ["i32", "I", "Na", "crate::Na", "self::Na"]
META = [
    "cfg(all())", "cfg(unix)", "cfg(not(any()))", "allow(unused)", "cfg_attr(any(), cfg(any()))",
    "cfg(on)", "cfg(any(unix, windows))", "allow(dead_code, unused_mut)",
    "cfg_attr(all(), allow(unused))",
]
VIS = ["", "pub", "pub(crate)", "pub(self)", "pub(in crate)"]
UNIT = ["()", "print!(\"u \")", "{ ~stmts~ }", "drop(~i~)", "if ~b~ { ~w~ }", "~x~ = ~i~"]

LISTS = {
    "ints": ("~i~", ", "), "arms": ("~p~ => ~i~", ", "), "garms": ("~p~ if ~b~ => ~i~", ", "),
    "ors2": ("~l~", " | "), "ors": ("~i!~", " | "), "lets": ("let ~q~ = ~i~;", " "),
    "adds": ("~+u1~ += ~i~;", " "), "rows": ("vec![~*ints~]", ", "),
    "chain": ("if ~b~ { ~i~ } else", " "), "fields": ("~id~: ~i~", ", "),
    "prints": ("print!(\"{} \", ~i~);", " "), "shown": ("~i~", ", "),
    "tuples": ("(~i~, ~b~)", ", "), "metas": ("#[~M~]", " "), "parms": ("~id~: ~t~", ", "),
    "blocks": ("if ~b~ ~G~", " "), "fns": ("fn ~fn~(~n1~: i32) -> i32 { ~u1~ + ~l~ }", " "),
    "unit": ("~id~ = ~L~", ", "),
}

STMT = [
    "let ~q~ = ~i~;", "let ~q~ = ~i~;", "let ~n~: ~t~ = ~i~;", "let ~n~ = ~i~;",
    "print!(\"{} \", ~i~);", "print!(\"{} \", ~i~);", "print!(\"{:?} \", ~s~);", "print!(~F~);",
    "println!(~F~);", "println!(\"{:?}\", ~O~);", "println!(\"{} {}\", ~i~, ~s~);",
    "println!(\"{:?}\", ~w~);", "print!(\"{n} {}\", ~i~, n = ~i~);",
    "let Some(~q~) = ~O!~ else { return; };", "let (~q~, ~q~) = (~i~, ~i~);",
    "let P { a, b: ~q~ } = ~P~;", "let P { a, b } = ~P~;", "let [~q~, ..] = [~i~, ~i~];",
    "let _g = D(~i~);", "let _ = D(~i~);", "drop(D(~i~));", "if ~b~ ~G~", "if ~b~ ~G~ else ~G~",
    "if let ~p~ = ~i~ ~G~", "match ~i~ { ~p~ => ~w~, _ => ~w~ }",
    "match ~i~ { ~p~ => ~G~ _ => ~G~ }", "for ~q~ in 0..2i32 ~G~", "for ~n~ in [~*ints~] ~G~",
    "for ~q~ in 0..~l~.min(2) ~G~",
    "~'1~: for ~n~ in 0..3i32 { if ~b~ { continue ~'1~; } ~stmts~ }",
    "~'1~: { if ~b~ { break ~'1~; } ~stmts~ }",
    "'k1: for ~n~ in 0..2i32 { for ~n~ in 0..2i32 { if ~b~ { break 'k1; } ~stmts~ } }",
    "{ ~stmts~ }", "loop { ~stmts~ break; }", "const ~K1~: ~t~ = ~k~; print!(\"{} \", ~K1~);",
    "~*prints~", "~*blocks~", "let ~n1~ = ~i~; print!(\"{} \", ~u1~ + ~i!~);",
    "let mut ~n1~ = ~i~; ~u1~ -= ~i~; print!(\"{} \", ~u1~);",
    "assert!(~i!~ != 77777, \"{}\", ~i~);", "assert_eq!(~i~, { ~i~ } | 0 * 1);", "~x~ = ~i~;",
    "~x~ += ~i~;", "~i!~;", "let ~n~ = ~c~(~i~);", "print!(\"{} \", ~c!~(~i~));", "t(~i~);",
    "{ ~i~ };", "#[~m~] let ~n~ = ~i~;", "#[~m~] print!(\"{} \", ~i~);", "#[~m~] { ~stmts~ }",
    "fn f8() -> ~t~ { ~k~ } print!(\"{} \", f8());", "while ~b~ { ~stmts~ break; }",
    "write_to(&mut out, ~i~);", "let f = ~c~; print!(\"{} \", f(~i~));", "unsafe { ~stmts~ }",
    "let a; a = ~i~;", "while let Some(~q~) = it.next() { ~stmts~ }",
    "print!(concat!(\"{} \", \"{} \"), ~i~, ~i~);",
    "let ~n1~ = ~i~; let ~n1~ = ~u1~ + ~i!~; print!(\"{} \", ~u1~);", "eat(~i~, || ~i~);",
]
ITEM = [
    "~v~ fn ~F1~(~n1~: ~t~) -> ~t~ { let (mut a, mut b, mut x, mut y) = (1i32, 2i32, 3i32, "
    "4i32); let ~n~ = ~u1~; ~i~ } use ~F1~(~i~)",
    "~v~ const ~K1~: ~t~ = ~k~; use ~K1~", "~v~ static ~K1~: ~t~ = ~k~; use ~K1~",
    "~*metas~ ~v~ fn ~F1~() -> ~t~ { ~k~ } use ~F1~()",
    "#[derive(Debug)] ~v~ struct ~S1~ { ~v~ one: ~t~, two: ~T~ } use size::<~S1~>() as i32",
    "#[derive(Debug, Clone, Copy)] ~v~ enum ~S1~ { A = ~k~ as isize, B } use ~S1~::A as i32",
    "~v~ struct ~S1~<~'1~>(&~'1~ ~t~); use *~S1~(&~i!~).0",
    "~v~ fn ~F1~<~'1~, X: ~h2~>(v: &~'1~ X) -> &~'1~ X { v } use *~F1~(&~i~)",
    "~v~ mod ~F1~ { use super::*; pub const C: ~t~ = ~k~; pub fn f() -> i32 { ~k~ } } use "
    "~F1~::C + ~F1~::f()",
    "~v~ trait ~S1~ { const N: ~t~ = ~k~; fn go(&self) -> ~t~ { ~k~ } } impl ~S1~ for u8 {} "
    "use ~S1~::go(&1u8)",
    "~v~ struct ~S1~; impl ~S1~ { ~v~ fn one(&self) -> ~t~ { ~k~ } #[~M~] fn two() -> i32 { "
    "~k~ } } use ~S1~.one() + ~S1~::two()",
    "~v~ type ~S1~ = ~t~; use (~i~) as ~S1~",
    "~v~ fn ~F1~(~q~: ~t~, v: [~T~; 0]) -> usize { v.len() } use ~F1~(~i~, []) as i32",
    "#[cfg(any())] ~v~ fn ~F1~() -> i32 { ~k~ } #[cfg(not(any()))] ~v~ fn ~F1~() -> i32 { "
    "~k~ } use ~F1~()",
    "~v~ struct ~S1~ { ~*parms~ } use size::<~S1~>() as i32",
    "~v~ struct ~S1~; impl ~S1~ { ~*fns~ } use size::<~S1~>() as i32",
    "#[derive(Clone, Copy)] ~v~ enum ~S1~ { ~*unit~ } use size::<~S1~>() as i32",
    "/// Said ~l~.\n~v~ fn ~F1~() -> ~t~ { ~k~ } use ~F1~()",
    "~v~ fn ~F1~(c: impl Fn(~t~) -> ~t~) -> ~t~ { c(~k~) } use ~F1~(~c~)",
    "~v~ fn ~F1~<const N: i32>() -> i32 { N } use ~F1~::<~l~>() + ~F1~::<{ ~k~ }>()",
    "~v~ struct ~S1~; impl Says for (~S1~, ~T~) { fn says() -> i32 { ~k~ } } use "
    "size::<~S1~>() as i32",
]

BASE = """let (mut a, mut b, mut x, mut y) = (1i32, 20i32, 300i32, 4000i32);
let p = P { a: 5, b: 6 };
let q = Some(7i32);
let mut out = String::new();
let mut it = 0..2i32;"""
PRELUDE = """#[macro_use] mod base { macro_rules! add { ($a:expr, $b:expr) => { $a + $b } } }
pub struct D(pub i32);
impl D { pub fn get(&self) -> i32 { print!("g{} ", self.0); self.0 } }
impl Drop for D { fn drop(&mut self) { print!("~{} ", self.0); } }
#[derive(Debug, Clone, Copy, PartialEq)] pub struct P { pub a: i32, pub b: i32 }
impl P { pub fn total(&self) -> i32 { self.a * 2 + self.b } }
pub fn mk(a: i32) -> P { P { a, b: 9 } }
pub fn t(n: i32) -> i32 { print!("t{} ", n); n }
pub fn apply(f: impl Fn(i32) -> i32, n: i32) -> i32 { f(n) }
pub fn eat<X>(n: i32, f: impl FnOnce() -> X) { print!("e{} ", n); f(); }
pub fn sum(v: &[i32]) -> i32 { v.iter().fold(0, |s, n| s.wrapping_mul(3).wrapping_add(*n)) }
pub fn size<X: ?Sized>() -> usize { std::mem::size_of::<&X>() + std::any::type_name::<X>().len() }
pub fn w<const N: i32>() -> i32 { N }
pub fn dbl(n: &i32) -> i32 { n.wrapping_mul(2) }
pub fn dbl1(n: i32) -> i32 { n.wrapping_mul(2) }
pub fn write_to(out: &mut String, n: i32) { out.push_str(&n.to_string()); }
pub type I = i32;
pub type Id<X> = X;
pub trait Tr {}
pub trait Says { fn says() -> i32 { 1 } }
pub struct Na;
impl Na { pub const ONE: i32 = 1; pub fn get(n: i32) -> i32 { n } }
pub trait Same { type T; fn same(self) -> Self where Self: Sized { self } \
const ONE: i32 = 1; fn get(n: i32) -> i32 { n + 1 } }
impl<X> Same for X { type T = i32; }
pub const K0: i32 = 11;
pub fn bare(s: &str) -> String { s.split_whitespace().collect() }"""
