"""Repetitions of a template whose variables repeat different numbers of times: the message of rustc 1.95, at the second variable. rustc marks
the whole repetition. `expandm` writes as many rounds as the shorter list has.
"""
from expandm import objects

# Rules, with `§` before the variable at fault; an argument; the message.
UNEQUAL = (
    ("($($a:ident)*; $($b:ident)*) => { $($a §$b)* }", "x y z; u v", "meta-variable `a` repeats 3 times, but `b` repeats 2 times"),
    ("($($a:ident)*; $($b:ident)*) => { $($a §$b)* }", "x; u v", "meta-variable `a` repeats 1 time, but `b` repeats 2 times"),
    ("($($a:ident)*; $($b:ident)*) => { $($a §$b)* }", "; u", "meta-variable `a` repeats 0 times, but `b` repeats 1 time"),
    ("($($a:ident)*; $($b:ident)*) => { $($b §$a)* }", "x y z; u v", "meta-variable `b` repeats 2 times, but `a` repeats 3 times"),
    ("($($a:ident)*; $($b:ident)?) => { $($a §$b)* }", "x y;", "meta-variable `a` repeats 2 times, but `b` repeats 0 times"),
    # A third variable, and one that doesn't repeat.
    ("($($a:ident)*; $($b:ident)*; $($c:ident)*) => { $($a $b §$c)* }", "x y; u v; w", "meta-variable `a` repeats 2 times, but `c` repeats 1 time"),
    ("($n:ident; $($a:ident)*; $($b:ident)*) => { $($n $a §$b)* }", "n; x y; u", "meta-variable `a` repeats 2 times, but `b` repeats 1 time"),
    # In a group, in a repetition, and in a round of a repetition.
    ("($($a:ident)*; $($b:ident)*) => { fn f() { $(g($a, §$b);)* } }", "x y; u", "meta-variable `a` repeats 2 times, but `b` repeats 1 time"),
    ("($($($a:ident)*; $($b:ident)*),*) => { $( $($a §$b)* )* }", "x; u, y z; v", "meta-variable `a` repeats 2 times, but `b` repeats 1 time"),
    ("($($($a:ident)*;)* , $($b:ident)*) => { $( $($a)* §$b )* }", "x y; z;, u", "meta-variable `a` repeats 2 times, but `b` repeats 1 time"),
    ("($($($a:ident)*;)* , $($b:ident)*) => { $( $($a §$b)* )* }", "x y; z;, u", "meta-variable `a` repeats 2 times, but `b` repeats 1 time"),
    # The first rule that matches is the one that counts.
    ("(a) => {}; ($($a:ident)*; $($b:ident)*) => { $($a §$b)* }", "x y; u", "meta-variable `a` repeats 2 times, but `b` repeats 1 time"),
    # Expressions.
    ("($($a:ident)*; $($b:ident)*) => { $($a ${concat(p, §$b)})* }", "x y; u", "meta-variable `a` repeats 2 times, but `b` repeats 1 time"),
)

# Rules and arguments with lists of the same length.
EQUAL = (
    ("($($a:ident)*; $($b:ident)*) => { $($a $b)* }", "x y; u v"),
    ("($($a:ident)*; $($b:ident)*) => { $($a $b)* }", ";"),
    ("($($a:ident = $b:expr),*) => { $($a $b)* }", "x = 1, y = 2"),
    ("($($($a:ident)*; $($b:ident)*),*) => { $( $($a $b)* )* }", "x; u, y z; v w"),
    ("($($($a:ident)*; $b:ident),*) => { $( $($a $b)* )* }", "x y; u, z; v"),
    ("($($a:ident)*; $($b:ident)*) => { $($a)* $($b)* }", "x y; u"),
    ("($n:ident; $($a:ident)*) => { $($a $n)* }", "n; x y"),
)


def text_of(rules, argument):
    return f"macro_rules! m {{ {rules} }}\nm!{{ {argument} }}\n"


def found(program, text, words=()):
    """The errors on a text: each message, and the byte where it is; and the status."""
    ran = program.run([*words, "--json", "a.rs"], {"a.rs": text})
    errors = [report for report in objects(ran.err) if report["level"] == "error"]
    return [(report["message"], report["spans"][0]["byte_start"]) for report in errors], ran.status


def test(program):
    for rules, argument, message in UNEQUAL:
        text = text_of(rules, argument)
        at = len(text.partition("§")[0].encode())
        program.check("lengths.UNEQUAL", text, found(program, text.replace("§", "")), ([(message, at)], 1))
        words = ["--dialect", "rust-analyzer"]
        program.check("lengths.UNEQUAL, rust-analyzer", text, found(program, text.replace("§", ""), words), ([], 0))
    for rules, argument in EQUAL:
        program.check("lengths.EQUAL", rules, found(program, text_of(rules, argument)), ([], 0))
