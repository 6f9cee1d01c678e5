"""Runs on random texts, on random rules with repetitions, and on fragments at the front of random texts."""
import tempfile

from mbex import ARG
from mbex.runs import Texts, fault, has_ended

PIECES = (
    "(", ")", "[", "]", "{", "}", "$", "$x:ident", "$t:tt", "$x", "$t", ":", "=>", ";", ",", "x", "r#x", "crate ",
    "_", "1", "1.0", "0x", '"', "'", "\\", "//", "/*", "*/", "\n", " ", "é", "\x00", "$e:expr", "$t:ty", "$p:pat",
    "$p:path", "$s:stmt", "$b:block", "$m:meta", "$i:item", "$v:vis", "$l:lifetime", "$l:literal", "$(", "),*", ")?",
    "let ", "mut ", "ref ", "pub ", "self ", "in ", "const ", "unsafe ", "break ", "return ", "true ", "use ",
    "static ", "fn ", "struct ", "impl ", "'a ", "'b'", "'\\n'", "1.5", "1e5", "2u8", '"s"', "&", "*", "<", ">", "::",
    "->", "!", "?", ".", "..", "=", "==", "+", "-", "|", "&&", "<<=", "{ }", "( )", "[ ]", "(x, y)", "{ x }", "::<x>",
    "x::y", "x.y()", "x + 1", ": u8",
)

OPS = (
    "a ", "b ", "1 ", ", ", "; ", "=> ", "'a ", "(a) ", "[$x:ident] ", "($y:tt) ", "$x:ident ", "$x:ident ",
    "$y:ident ", "$y:tt ", "$z:literal ", "$z:lifetime ", "$v:vis ", "$e:expr ", "$e:expr_2021 ", "$t:ty ",
    "$p:path ", "$q:pat ", "$b:block ", "$u:unknown ",
)

SUFFIXES = (
    "* ", "+ ", "? ", ",* ", ",+ ", ",? ", ";* ", ";+ ", "a* ", "b+ ", "1* ", "=>* ", "'a* ", ";;* ", "b? ", "* ",
)

WRITTEN = (
    "a ", "1 ", ", ", "[$x] ", "$x ", "$x ", "$y ", "$y ", "$z ", "$v ", "$e ", "$t ", "$p ", "$q ", "$b ", "$w ",
    "${count($x)} ", "${count($y, 1)} ", "${ignore($x)} ", "${index()} ", "${len()} ", "${len(1)} ",
    "${concat($x, a)} ", "${concat($y, $z)} ",
)

WORDS = (
    "a ", "a ", "a ", "b ", "b ", "c ", "1 ", "1 ", ", ", ", ", "; ", "; ", "=> ", "'a ", "(a) ", "[b] ", "(1 2) ",
    "pub ", "_ ", "a + 1 ", "x::y ", "{} ", "&u8 ", "-2 ",
)

# A rule for each kind of fragment that the grammar finds. Any tokens may follow the fragment.
FRONTS = "".join(
    f"($x:{specifier} $($t:tt)*) => {{}};\n"
    for specifier in ("path", "expr", "ty", "pat", "pat_param", "stmt", "block", "meta", "item", "vis")
)

# How many texts are made, three at a time, and how many for the fronts; and of each seed, how many definitions, each
# with four arguments.
TEXTS = 1_000
FRONT_TEXTS = 3_000
SEEDS = (2, 3, 4, 5)
DEFINITIONS = 200


class Numbers:
    """Numbers that look random, from a seed."""

    def __init__(self, seed):
        self.state = seed

    def below(self, bound):
        self.state = (self.state * 6_364_136_223_846_793_005 + 1_442_695_040_888_963_407) % (1 << 64)
        return (self.state >> 33) % bound

    def text(self, is_of_pieces):
        """Up to eleven pieces or characters."""
        count = self.below(12)
        if is_of_pieces:
            return "".join(PIECES[self.below(96)] for _ in range(count))
        codes = [self.below(0x11_0000) for _ in range(count)]
        return "".join(chr(code) for code in codes if not 0xD800 <= code < 0xE000)

    def pieces(self, pieces, repeats):
        """Up to nine pieces. If there are suffixes, some pieces become the body of a repetition, also nested ones."""
        done = body = ""
        for _ in range(self.below(10)):
            turn = self.below(6)
            if repeats and turn == 0:
                body = f"$({body}){SUFFIXES[self.below(16)]}"
            elif turn == 1:
                done, body = done + body, ""
            else:
                body += pieces[self.below(24)]
        return done + body

    def rules(self):
        """One to three rules with repetitions."""
        rules = ""
        for _ in range(self.below(3) + 1):
            pattern = self.pieces(OPS, True)
            template = self.pieces(WRITTEN, True)
            rules += f"({pattern}) => {{{template}}};\n"
        return rules


def texts_end(program, texts):
    """Runs on two texts, and of the rule that is made of two, end as runs do."""
    numbers = Numbers(1)
    for number in range(TEXTS):
        definition, argument, template = (numbers.text(number % 4 != 0) for _ in range(3))
        rule = f"({definition}) => {{{template}}}"
        for pair in ((definition, argument), (rule, argument), (rule, definition)):
            program.check("TEXTS", pair, has_ended(texts.ran(*pair), *pair), True)


def has_fronts(run, argument):
    """Whether each rule of FRONTS reads the argument to its end, or nothing of it; or the argument isn't lexed."""
    if run.status == 4:
        return run.out == "" and fault(run.err, {ARG: argument})
    lines = run.out.splitlines()
    ends = [(f"rule {rule}: one reading", f"rule {rule}: stuck at 0") for rule in range(10)]
    return (run.status, run.err, len(lines)) == (0, "", 10) and all(line in end for line, end in zip(lines, ends))


def fronts_end(program, texts):
    """Each kind of fragment is found at the front of a random text, or nothing is."""
    numbers = Numbers(1)
    for number in range(FRONT_TEXTS):
        argument = numbers.text(number // 3 % 4 != 0)
        run = texts.ran(FRONTS, argument, lint=True)
        program.check("FRONTS", (argument, run), has_fronts(run, argument), True)


def rules_end(program, texts, seed):
    """Runs of random rules, each on four random arguments, end within a second of the processor."""
    numbers = Numbers(seed)
    for _ in range(DEFINITIONS):
        rules = numbers.rules()
        for _ in range(4):
            argument = numbers.pieces(WORDS, False)
            run = texts.ran(rules, argument)
            is_so = has_ended(run, rules, argument) and run.seconds < 1
            program.check(f"DEFINITIONS of seed {seed}", (rules, argument), is_so, True)


def test(program):
    with tempfile.TemporaryDirectory() as folder:
        texts = Texts(program, folder)
        texts_end(program, texts)
        fronts_end(program, texts)
        for seed in SEEDS:
            rules_end(program, texts, seed)
