"""The calls from Python: a line for each that fails, and `N passed, M failed`."""
import ctypes
import pickle
import sys
from concurrent.futures import ThreadPoolExecutor

import mbe
from mbe import c

ROWS = [
    ("($x:ident) => {$x $x}", "a", b"a a", 0),
    ("($($x:ident),*) => {[$($x);*]}", "a, b, c", b"[a; b; c]", 0),
    ("() => {none}; ($e:expr) => {one}", "1 + 2", b"one", 1),
    ("() => {none}; ($e:expr) => {one}", "", b"none", 0),
    ("(a $x:tt) => {$x}", "a (b c)", b"(b c)", 0),
    ("($x:literal) => {$x}", "1u8", b"1u8", 0),
]
passed = failed = 0


def check(found: object, wanted: object) -> None:
    global passed, failed
    if found == wanted:
        passed += 1
    else:
        failed += 1
        print(f"failed: {found!r} for {wanted!r}")


def error(call, *words, **named):
    try:
        call(*words, **named)
    except mbe.Error as wrong:
        return wrong
    return None


def raised(call, *words):
    """The name of what a call raises, or no text."""
    try:
        call(*words)
    except Exception as wrong:
        return type(wrong).__name__
    return ""


for definition, argument, expansion, rule in ROWS:
    found = mbe.Macro(definition).expand(argument, form="rust")
    check((found.trees.text, found.rule, found.fault), (expansion, rule, None))
fault = mbe.Macro("(a) => {b}").expand("c").fault
check((fault[0], fault[1].file, fault[1].start, fault[1].end), ("unexpected token in input", 1, 0, 1))
wrong = error(mbe.Macro, "($x) => {}")
check((wrong.status, wrong.message), ("refused", "missing fragment specifier"))
wrong = error(mbe.Macro("() => {}").expand, "a )")
check((wrong.status, wrong.part, wrong.place), ("no tokens", "argument", 2))
check(error(mbe.Macro("() => {}").expand, b"\xff").status, "not UTF-8")
check(error(mbe.Macro, "() => {}", edition=2019).status, "bad number")
check(mbe.Macro("(a) => {}; ($x:tt) => {}; ($($x:ident)* $y:ident) => {}").explain("b"), [("stuck", 0), ("one", 0), ("ambiguous", 0)])
trees = mbe.convert("a (1u8 +)")
check([text for _, text in trees.leaves()], ["a", "1u8", "+"])
check(mbe.convert(trees, form="lines"), mbe.convert("a (1u8 +)", form="lines"))
check(mbe.Macro("($($x:tt)*) => {$($x)*}").expand(trees, form="rust").trees.text, b"a(1u8 +)")
check(error(mbe.convert, mbe.Trees(trees.tokens[:3], trees.text)).status, "no trees")
check(len(list(mbe.Macro("($($x:ident)*) => {$($x)*}").expand("a " * 3000).trees.leaves())), 3000)
found = mbe.Macro("(a) => {b c}").expand("a").trees.leaves()
check([(token.span.file, token.span.start, token.span.end) for token, _ in found], [(0, 8, 9), (0, 10, 11)])
wrong = error(mbe.Macro, "() => {", dialect="rust")
check((wrong.status, wrong.part), ("no tokens", "definition"))
twice = mbe.Macro("($x:ident) => {$x $x}; ($x:literal) => {$x}")
check([twice.expand(text, form="rust").trees.text for text in ("a", "1", "b")] * 2, [b"a a", b"1", b"b b"] * 2)
check([error(twice.expand, ")").status, twice.expand("+").fault[0], twice.expand("c", form="rust").rule], ["no tokens", "expected ident", 0])
late = mbe.Macro("(a) => {b}; attr() (c) => {d}", check=False)
check([late.rules, late.expand("c", form="rust", style="attr").trees.text, late.rules], [None, b"d", 2])
check(error(mbe.Macro("($x) => {}", check=False).expand, "a").status, "refused")
for it in (c.Macro(), late._read):
    freed = [c.LIB.mbe_c_macro_free(ctypes.byref(it)) for _ in range(2)]
    check(freed, [c.STATUSES.index("no macro") if it is not late._read else 0, c.STATUSES.index("no macro")])
check(error(late.expand, "a").status, "no macro")
sites = [mbe.Span(file=n, start=n) for n in range(5)]
found = twice.expand_each(["a", b"1u8", "+", ")", "b"], form="rust", call_sites=sites)
check([it.trees.text for it in found[:2]], [b"a a", b"1u8"])
check((found[2].fault[0], found[3].status, found[3].part, found[4].trees.text), ("expected ident", "no tokens", "argument", b"b b"))
found = twice.expand_each(["a", "b"], call_sites=sites[3:])
alone = [twice.expand(text, call_site=site) for text, site in zip("ab", sites[3:])]
check([[bytes(token) for token in it.trees.tokens] for it in found], [[bytes(token) for token in it.trees.tokens] for it in alone])
check(twice.expand_each([]), [])
check([it.trees.text for it in twice.expand_each(["word"] * 3000, form="rust")], [b"word word"] * 3000)
check(error(mbe.Macro("($x) => {}", check=False).expand_each, ["a"]).status, "refused")
sums = "expr = operand ('+' operand!)*\noperand = NAME"
check(mbe.Macro("($e:expr) => {$e}", grammar=sums).expand("a + b").fault, None)
wrong = error(mbe.check_grammar, "a = b")
check((wrong.status, wrong.place, wrong.column), ("no grammar", 1, 5))
rust = mbe.rust_macro("($x:ident) => {$x}; ($e:expr) => {[$e]}")
check((rust.rules, repr(rust)), (2, "<mbe.Macro, rules: 2>"))
check(str(rust.expand("r#fn", form="rust")), "r#fn")
check(mbe.Span(1, 2, 3, 4, 5) == mbe.Span(file=1, ast=2, start=3, end=4, context=5), True)
check([mbe.Span() == other for other in (mbe.Span(end=1), 0, c.RawVerdict())], [False] * 3)
check(repr(mbe.Span(end=9)), "Span(file=0, ast=0, start=0, end=9, context=0)")
check(raised(hash, mbe.Span()), "TypeError")
trees = mbe.convert("a (b) c")
check([text for _, text in trees.group(2).leaves()], ["b"])
check(raised(trees.group, 1), "ValueError")
check(str(rust.expand(trees.group(2), form="rust")), "b")
check(rust.expand("a").check() == rust.expand("a").trees, True)
try:
    rust.expand("+ +").check()
    check("an expansion", "an error")
except mbe.ExpansionError as wrong:
    check((str(wrong), wrong.span.file, wrong.span.start), (wrong.message, 1, 0))
    again = pickle.loads(pickle.dumps(wrong))
    check((again.message, again.span, again.rule), (wrong.message, wrong.span, wrong.rule))
wrong = error(mbe.rust_macro, "($x) => {}")
check(str(wrong), "definition at 0: refused: missing fragment specifier")
check(vars(pickle.loads(pickle.dumps(wrong))), vars(wrong))
# `é` has two bytes, and is one code point.
text = "é + é"
plus = [token for token, leaf in mbe.convert(text, dialect="rust").leaves() if leaf == "+"][0]
check((plus.span.start, plus.span.end, plus.span.code_points(text)), (3, 4, (2, 3)))
check(mbe.Span(end=99).code_points(text), (0, 5))
for call in (lambda: rust.expand("a", form="text"), lambda: rust.expand("a", style="bang"), lambda: mbe.convert("a", dialect="c"),
             lambda: rust.expand_each(["a"], form=""), lambda: rust.expand_each(["a", "b"], call_sites=[mbe.Span()])):
    check(raised(call), "ValueError")
with mbe.rust_macro("() => {}") as closed:
    check(closed.expand("").fault, None)
check(error(closed.expand, "").status, "no macro")
with ThreadPoolExecutor(1) as pool:
    check(pool.submit(raised, rust.expand, "a").result(), "RuntimeError")
check(mbe.Macro("($t:ty) => {$t}", dialect="rust", grammar="rust").expand("Vec<&'a str>", form="rust").trees.text, b"Vec<&'a str>")
print(f"{passed} passed, {failed} failed")
sys.exit(failed != 0)
