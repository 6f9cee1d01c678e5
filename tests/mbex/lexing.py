"""Each rule of the sample lexer: texts with their tokens and bytes, and texts that aren't lexed."""
from mbex import printed, prints, ran
from programs import spelled

# Texts with their tokens: a literal is its kind and its text with the suffix, a punct its char and its spacing. The
# bytes follow each token. The bytes of the closing follow an opening, too.
TOKENS = (
    # White space and comments are passed over, block comments nest, and one without an end is at fault where it begins.
    (" \t\r\n", ""),
    ("a//b\nc", "a 0..1, c 5..6"),
    ("a//", "a 0..1"),
    ("//!a\n///b\n/** c */d", "d 18..19"),
    ("/*/**/*/a", "a 8..9"),
    ("/**/a", "a 4..5"),
    ("/***/a", "a 5..6"),
    ("/*// */a", "a 7..8"),
    ("/*/*/**/*/*/a", "a 12..13"),
    ("//a\rb\nc", "c 6..7"),
    ("a/b", "a 0..1, / alone 1..2, b 2..3"),
    ("a*/b", "a 0..1, * joint 1..2, / alone 2..3, b 3..4"),
    # Identifiers are as long as they can be. One that would begin a prefixed string or a byte literal is a fault.
    ("_ _1 é1", "_ 0..1, _1 2..4, é1 5..8"),
    ("a-b", "a 0..1, - alone 1..2, b 2..3"),
    ("e\u0301", "e\u0301 0..3"),
    ("r#a r#_ r#é1", "r#a 0..3, r#_ 4..7, r#é1 8..13"),
    ("r#crate", "r#crate 0..7"),
    ("r#", "r 0..1, # alone 1..2"),
    ("r#1", "r 0..1, # alone 1..2, Integer 1 2..3"),
    ("r# a", "r 0..1, # alone 1..2, a 3..4"),
    ("r##a", "r 0..1, # joint 1..2, # alone 2..3, a 3..4"),
    ("br#a", "br 0..2, # alone 2..3, a 3..4"),
    ('a#"b"', "a 0..1, # alone 1..2, Str b 2..5"),
    ("b 'a'", "b 0..1, Char a 2..5"),
    ("br'a'", "br 0..2, Char a 2..5"),
    ("c'a'", "c 0..1, Char a 1..4"),
    # A string ends at the next quote that no `\` escapes.
    ('"a"', "Str a 0..3"),
    ('""', "Str  0..2"),
    ('"a\nb"', "Str a\nb 0..5"),
    ('"a\\"b"', 'Str a\\"b 0..6'),
    ('"\\\\"', "Str \\\\ 0..4"),
    ('"//é" b', "Str //é 0..6, b 7..8"),
    ('"a""b"', "Str a 0..3, Str b 3..6"),
    # After a `'`: a char where one is before the next `'`, else a lifetime.
    ("'a'", "Char a 0..3"),
    ("'a", "' joint 0..1, a 1..2"),
    ("'ab'c'", "' joint 0..1, ab 1..3, Char c 3..6"),
    ("'é'", "Char é 0..4"),
    ("'\\''", "Char \\' 0..4"),
    ("'\\\\'", "Char \\\\ 0..4"),
    ("'\t'", "Char \t 0..3"),
    ("'\\n'", "Char \\n 0..4"),
    ("'\\u{61}'", "Char \\u{61} 0..8"),
    ("'\\ab'", "Char \\ab 0..5"),
    ("' ' '\"' '1'", 'Char   0..3, Char " 4..7, Char 1 8..11'),
    ("'_' '_", "Char _ 0..3, ' joint 4..5, _ 5..6"),
    ("&'a", "& alone 0..1, ' joint 1..2, a 2..3"),
    ("'a 'b'", "' joint 0..1, a 1..2, Char b 3..6"),
    ("'a''b'", "Char a 0..3, Char b 3..6"),
    ("'r#a", "' joint 0..1, r#a 1..4"),
    ("'é1+", "' joint 0..1, é1 1..4, + alone 4..5"),
    # Integers in four bases.
    ("0 00 1_000", "Integer 0 0..1, Integer 00 2..4, Integer 1_000 5..10"),
    ("0x 0xF_f", "Integer 0x 0..2, Integer 0xF_f 3..8"),
    ("0xfg", "Integer 0xfg 0..4"),
    ("0o78i 0b12", "Integer 0o78i 0..5, Integer 0b12 6..10"),
    ("0b1e3", "Integer 0b1e3 0..5"),
    ("0X1 0B1 0O7", "Integer 0X1 0..3, Integer 0B1 4..7, Integer 0O7 8..11"),
    ("0x1.5", "Integer 0x1 0..3, . alone 3..4, Integer 5 4..5"),
    ("0b1.5", "Integer 0b1 0..3, . alone 3..4, Integer 5 4..5"),
    ("0x1e+5", "Integer 0x1e 0..4, + alone 4..5, Integer 5 5..6"),
    (".1", ". alone 0..1, Integer 1 1..2"),
    # A number is a float where a fraction or an exponent is taken.
    ("1. 1.0", "Float 1. 0..2, Float 1.0 3..6"),
    ("1..2", "Integer 1 0..1, . joint 1..2, . alone 2..3, Integer 2 3..4"),
    ("1.a", "Integer 1 0..1, . alone 1..2, a 2..3"),
    ("1._", "Integer 1 0..1, . alone 1..2, _ 2..3"),
    ("1.é", "Integer 1 0..1, . alone 1..2, é 2..4"),
    ("1.+2", "Float 1. 0..2, + alone 2..3, Integer 2 3..4"),
    ("1.(", "Float 1. 0..2, ( 2..3 3..3, end"),
    ("1.0.0", "Float 1.0 0..3, . alone 3..4, Integer 0 4..5"),
    ("1_.2_", "Float 1_.2_ 0..5"),
    ("1e5 1E+5 1e-5_", "Float 1e5 0..3, Float 1E+5 4..8, Float 1e-5_ 9..14"),
    ("1.5e3_0f64", "Float 1.5e3_0f64 0..10"),
    ("1.e5", "Integer 1 0..1, . alone 1..2, e5 2..4"),
    ("1.0e", "Float 1.0e 0..4"),
    ("1e 1e_5", "Integer 1e 0..2, Integer 1e_5 3..7"),
    ("1e+", "Integer 1e 0..2, + alone 2..3"),
    ("1e+_5", "Integer 1e 0..2, + alone 2..3, _5 3..5"),
    ("1e+x", "Integer 1e 0..2, + alone 2..3, x 3..4"),
    # An identifier directly after a literal is its suffix.
    ("1u8 1_é", "Integer 1u8 0..3, Integer 1_é 4..8"),
    ('"a"_b c', "Str a_b 0..5, c 6..7"),
    ('"a" b', "Str a 0..3, b 4..5"),
    ("'a'b", "Char ab 0..4"),
    ("1.0f32", "Float 1.0f32 0..6"),
    ("1r#a", "Integer 1r 0..2, # alone 2..3, a 3..4"),
    ("1'a'", "Integer 1 0..1, Char a 1..4"),
    # A closing matches the open group; groups that are open at the end are closed there.
    ("(a[b]{c})", "( 0..1 8..9, a 1..2, [ 2..3 4..5, b 3..4, end, { 5..6 7..8, c 6..7, end, end"),
    ("( [", "( 0..1 3..3, [ 2..3 3..3, end, end"),
    ("()a", "( 0..1 1..2, end, a 2..3"),
    # A punct is joint where the next token begins directly after it and is a punct; any other character is a fault.
    ("+a+", "+ alone 0..1, a 1..2, + alone 2..3"),
    ("+ +", "+ alone 0..1, + alone 2..3"),
    ("+/**/+", "+ alone 0..1, + alone 5..6"),
    ("+//\n+", "+ alone 0..1, + alone 4..5"),
    ("+/ /", "+ joint 0..1, / alone 1..2, / alone 3..4"),
    ("+'a", "+ alone 0..1, ' joint 1..2, a 2..3"),
    ("+'a'", "+ alone 0..1, Char a 1..4"),
    ("+(+", "+ alone 0..1, ( 1..2 3..3, + alone 2..3, end"),
    ('+""', "+ alone 0..1, Str  1..3"),
    (";+;", "; joint 0..1, + joint 1..2, ; alone 2..3"),
    # All kinds of tokens, in groups that are open.
    (
        "r#é 0xFFu8 \"a\\\"\"b2 ['c' 1.5 += {",
        'r#é 0..4, Integer 0xFFu8 5..11, Str a\\"b2 12..19, [ 20..21 33..33, Char c 21..24, Float 1.5 25..28, '
        "+ joint 29..30, = alone 30..31, { 32..33 33..33, end, end",
    ),
    # The longest suffix, after each kind of literal.
    ("1«255 a»", "Integer 1«255 a» 0..256"),
    ("1.5«255 a»", "Float 1.5«255 a» 0..258"),
    ("'b'«255 a»", "Char b«255 a» 0..258"),
    ('"b"«255 a»', "Str b«255 a» 0..258"),
)

# A text that isn't lexed, with the byte at fault.
FAULTS = (
    # White space and comments are passed over, block comments nest, and one without an end is at fault where it begins.
    ("a /* b", 2),
    ("a /* /* */", 2),
    ("/*/", 0),
    ("/**", 0),
    ("/*//*/a", 0),
    ("a\u000bb", 1),
    ("a\u000cb", 1),
    ("a\u0085b", 1),
    ("a\u00a0b", 1),
    ("a\u2028b", 1),
    ("\ufeffa", 0),
    # Identifiers are as long as they can be. One that would begin a prefixed string or a byte literal is a fault.
    ('a"b"', 0),
    ('x r#a"b"', 2),
    ('1 r"a"', 2),
    ('r#"a"#', 0),
    ('x br##"a"##', 2),
    ('cr#"', 0),
    ("b'a'", 0),
    ("x b'", 2),
    ('u8""', 0),
    ("ⓐ", 0),
    # A string ends at the next quote that no `\` escapes.
    ('"abc', 0),
    ('a "b\\"', 2),
    ('"\\', 0),
    ('a\n"', 2),
    # After a `'`: a char where one is before the next `'`, else a lifetime.
    ("'", 0),
    ("''", 0),
    ("'''", 0),
    ("'\n'", 0),
    ("'\\", 0),
    ("'\\'", 0),
    ("a '1", 2),
    ("'//'", 0),
    ("' a", 0),
    ("'a\"b\"", 1),
    ("'ab'", 3),
    ("'e\u0301'", 4),
    # Integers in four bases.
    ("٣", 0),
    ("1٣", 1),
    # An identifier directly after a literal is its suffix.
    ('1u8"a"', 1),
    ("'a'b'c'", 3),
    # A closing matches the open group; groups that are open at the end are closed there.
    (")", 0),
    ("(]", 1),
    ("{ ( }", 4),
    ("é }", 3),
    ("(a))", 3),
    (") `", 0),
    ("` )", 0),
    # A punct is joint where the next token begins directly after it and is a punct; any other character is a fault.
    ("a `", 2),
    ("\\", 0),
    ("a\u0000", 1),
    ("€", 0),
    # A suffix has at most 255 bytes.
    ("1«255 a»b", 1),
    ("1.5«255 a»b", 3),
    ("'b'«255 a»b", 3),
    ('"b"«255 a»b', 3),
)

# All puncts. Side by side, each one except the last is joint.
PUNCTS = "=<>!&|~@.,;:#$?+-*/%^"

LITERALS = ("Integer", "Float", "Char", "Str")

CLOSINGS = {"(": ")", "[": "]", "{": "}"}


def place(text):
    """Bytes of a text as they are printed where it comes after a `[`."""
    start, end = map(int, text.split(".."))
    return f"1@{start + 1}..{end + 1}"


def line(token):
    """The line of a token."""
    token, _, at = token.rpartition(" ")
    first, _, second = token.partition(" ")
    if first in CLOSINGS:
        return f"SUBTREE {first}{CLOSINGS[first]} {place(second)} {place(at)}"
    if second in ("alone", "joint"):
        return f"PUNCH   {first} [{second}] {place(at)}"
    if first in LITERALS:
        return f"LITERAL {token} {place(at)}"
    return f"IDENT   {token} {place(at)}"


def lines(tokens):
    """The lines of all tokens, inside brackets."""
    indent, found = 4, []
    for token in tokens:
        if token == "end":
            indent -= 2
            continue
        found.append(f"{' ' * indent}{line(token)}\n")
        indent += 2 * (token[0] in CLOSINGS)
    return "".join(found)


def has_tokens(program, table, text, tokens):
    """A group is written with each token as it was lexed. The bracket around the text is closed where that ends."""
    argument = "[" + text
    end = len(argument.encode())
    trees = f"  SUBTREE [] 1@0..1 1@{end}..{end}\n{lines(tokens)}"
    prints(program, table, text, ran(program, "($t:tt) => {$t}", argument), printed(argument, "", 0, trees))


def test(program):
    for text, tokens in TOKENS:
        has_tokens(program, "TOKENS", spelled(text), spelled(tokens).split(", ") if tokens else ())
    signs = [f"{sign} joint {at}..{at + 1}" for at, sign in enumerate(PUNCTS[:-1])]
    has_tokens(program, "PUNCTS", PUNCTS, (*signs, f"{PUNCTS[-1]} alone {len(signs)}..{len(PUNCTS)}"))
    for text, at in FAULTS:
        run = ran(program, "($($t:tt)*) => {}", spelled(text))
        program.check("FAULTS", text, (run.status, run.out, run.err), (4, "", f"cannot lex the.arg at {at}\n"))
