#!/usr/bin/env python3
"""Compares `mbex` with rust-analyzer's own code on random definitions with repetitions, and
arguments of them.

ORIGINAL is a program with the command line of `mbex` over rust-analyzer's crate. The script makes
COUNT definitions, each with an argument that some rule matches or nearly matches. It runs both
programs, and prints each difference: the definition, the argument, what each program wrote, and
the differences of docs/DIFFERENCES.md that may be the reason. A difference without such a reason
(`NONE`) fails.
"""
import os
import random
import re
import subprocess
import sys

sys.path.insert(0, os.path.dirname(os.path.dirname(os.path.abspath(__file__))))
import common  # noqa: E402

NAMES = "xyzuvw"
KINDS = "ident ident ident tt literal lifetime expr expr expr_2021 ty path pat vis block stmt foo".split()
TOKENS = ["a", "b", "1", "'a", ",", ";", "=>", "+", "true", "-", "r#b", '"s"', "(", "["]
SEPARATORS = ["", "", "", ",", ",", ";", "=>", "b", "1", "'a", "true", ";;"]
SAMPLES = {
    "ident": ["a", "c", "r#b", "fn"],
    "tt": ["a", "1", "(b c)", "->", "'a", "{}"],
    "literal": ["1", "-2", "true", '"s"', "1.5"],
    "lifetime": ["'a", "'b"],
    "expr": ["1 + 2", "a", "f(1)", "-1", "{ 1 }", "const { 1 }", "_"],
    "expr_2021": ["1 * 2", "a", "x.y"],
    "ty": ["u8", "&'a [u8]", "Vec<u8>"],
    "path": ["a::b", "Vec<u8>", "c"],
    "pat": ["_", "a", "(b)", "1 | 2"],
    "vis": ["", "pub", "pub(crate)"],
    "block": ["{ 1 }", "{}"],
    "stmt": ["let a = 1", "a", "1 + 1"],
    "foo": ["a"],
}


class Maker:
    def __init__(self, seed):
        self.random = random.Random(seed)
        self.names = {}

    def pattern(self, depth):
        """The text of a pattern, and a function that makes an argument for it."""
        parts = [self.op(depth) for _ in range(self.random.randint(0 if depth < 2 else 1, 3))]
        return " ".join(it[0] for it in parts), lambda: " ".join(it[1]() for it in parts)

    def op(self, depth):
        turn = self.random.random()
        if turn < 0.35 and depth > 0:
            return self.repetition(depth)
        if turn < 0.75:
            name, kind = self.random.choice(NAMES), self.random.choice(KINDS)
            self.names[name] = kind
            return f"${name}:{kind}", lambda: self.random.choice(SAMPLES[kind])
        if turn < 0.85 and depth > 0:
            opening, closing = self.random.choice(["()", "[]", "{}"])
            text, sample = self.pattern(depth - 1)
            return f"{opening}{text}{closing}", lambda: f"{opening}{sample()}{closing}"
        token = self.random.choice(TOKENS[:-2])
        return token, lambda: token

    def repetition(self, depth):
        text, sample = self.pattern(depth - 1)
        separator, kind = self.random.choice(SEPARATORS), self.random.choice("***++?")

        def rounds():
            least, most = {"*": (0, 3), "+": (1, 3), "?": (0, 1)}[kind]
            return f" {separator} ".join(sample() for _ in range(self.random.randint(least, most)))

        return f"$({text}){separator}{kind}", rounds

    def template(self, depth):
        parts = []
        for _ in range(self.random.randint(0, 3)):
            turn = self.random.random()
            name = self.random.choice(list(self.names) or NAMES)
            if turn < 0.35 and depth > 0:
                separator, kind = self.random.choice(["", "", ",", ";", "=>"]), self.random.choice("***+?")
                parts.append(f"$({self.template(depth - 1)}){separator}{kind}")
            elif turn < 0.75:
                parts.append(f"${name}")
            elif turn < 0.85:
                parts.append(self.random.choice(TOKENS[:-2]))
            else:
                parts.append(self.random.choice([
                    f"${{count(${name})}}", f"${{count(${name}, 1)}}", f"${{ignore(${name})}}", "${index()}",
                    f"${{concat(a, ${name})}}", f"[${name}]",
                ]))
        return " ".join(parts)

    def spoiled(self, argument):
        """The argument, or sometimes the argument with one word more or less."""
        words = argument.split(" ")
        turn = self.random.random()
        if turn < 0.2 and len(words) > 1:
            del words[self.random.randrange(len(words))]
        elif turn < 0.4:
            words.insert(self.random.randrange(len(words) + 1), self.random.choice(TOKENS[:-2]))
        return " ".join(words)

    def case(self):
        """Patterns, as many templates, and an argument."""
        self.names = {}
        patterns, templates, samples = [], [], []
        for _ in range(self.random.choice([1, 1, 2, 3])):
            text, sample = self.pattern(2)
            patterns.append(text)
            templates.append(self.template(2))
            samples.append(sample)
        return patterns, templates, self.spoiled(self.random.choice(samples)())


class Meeting(Maker):
    """Definitions in which threads with different bindings meet at a state. Few rules match."""

    PIECES = ["$(a)*"] * 4 + ["$(a $(: $N:ident)?)*"] * 4 + ["$(a : $N:ident)*", "$(a)?", "$(a),*", "$(a $(a)?)*"]
    WORDS = ["a", "a", "a", "a", "a : p", "a : q"]
    ENDS = ["c d", "d", "c c", "", "c"]

    def pattern(self, depth):
        self.names = {}
        pieces = []
        for number in range(self.random.randint(2, 4)):
            piece = self.random.choice(self.PIECES)
            if "$N" in piece:
                name = NAMES[number % len(NAMES)]
                self.names[name] = 2 if "?)*" in piece else 1
                piece = piece.replace("$N", f"${name}")
            pieces.append(piece)
        if self.random.random() < 0.6:
            pieces.append("c")
        return " ".join(pieces), self.words

    def words(self):
        words = [self.random.choice(self.WORDS) for _ in range(self.random.randint(3, 7))]
        return " ".join(words + [self.random.choice(self.ENDS)])

    def template(self, depth):
        """Each variable with all that it is bound to, in a group for each outer round."""
        written = {1: "[$($%)*]", 2: "$([$($%)*])*"}
        return " ".join(written[depth].replace("%", name) for name, depth in self.names.items())

    def case(self):
        patterns, templates, sample = [], [], self.words
        for number in range(self.random.choice([1, 2, 2, 3])):
            patterns.append(self.pattern(2)[0])
            templates.append(f"R{number} " + self.template(2))
        return patterns, templates, sample()


# What docs/DIFFERENCES.md says of patterns and of templates that use this.
EXPLAINED_PATTERNS = [
    (r"\)(,|;|=>|b|1|'a|true|;;)\?", "a separator after the round of a `?` is tried"),
    (r"\)(b|1|'a|true)[*+]", "a shared iterator can move the source back"),
    (r"'a", "positions that go on over different numbers of tokens"),
]
EXPLAINED_TEMPLATES = [
    (r"\)(,|;|=>)?\?", "a `?` of a template whose first round faults tries the next rounds"),
]
EMPTY = "empty token tree in repetition"


def reasons_of(patterns, templates, ours, theirs):
    """The differences of docs/DIFFERENCES.md that may be the reason of this one."""
    found = [what for use, what in EXPLAINED_PATTERNS if any(re.search(use, it) for it in patterns)]
    found += [what for use, what in EXPLAINED_TEMPLATES if any(re.search(use, it) for it in templates)]
    if EMPTY in ours[0] and EMPTY not in theirs[0]:
        found = ["every repetition without separator is refused whose body can read nothing"]
    elif theirs[1] == -1:
        found = ["the original follows every beginning of a reading, and came to no end"]
    return found


def ran(program, folder):
    try:
        it = common.run([program, "d", "a"], cwd=folder, timeout=5)
    except subprocess.TimeoutExpired:
        return "no end", -1
    return it.stdout + it.stderr, it.returncode


def cases(maker, count, is_counted, ran_both):
    """The first cases that count, up to a number, each with the outputs of both programs."""
    number = 0
    while number < count:
        patterns, templates, argument = maker.case()
        definition = "; ".join(f"({it[0]}) => {{{it[1]}}}" for it in zip(patterns, templates))
        ours, theirs = ran_both(definition, argument)
        if is_counted(theirs):
            yield number, patterns, templates, argument, definition, ours, theirs
            number += 1


def asked():
    parser = common.arguments(__doc__)
    parser.add_argument("mbex", metavar="MBEX", type=os.path.abspath)
    parser.add_argument("original", metavar="ORIGINAL", type=os.path.abspath)
    parser.add_argument("count", metavar="COUNT", type=int, nargs="?", default=5000)
    parser.add_argument("seed", metavar="SEED", type=int, nargs="?", default=1)
    parser.add_argument("--failing", action="store_true",
                        help="make patterns with optional and repeated parts side by side that "
                             "begin alike, so that several threads meet at one state, and COUNT "
                             "calls that fail with ORIGINAL")
    return parser.parse_args()


def main():
    args = asked()
    maker = (Meeting if args.failing else Maker)(args.seed)
    differ, unexplained, statuses = 0, 0, {}
    with common.folder() as folder:

        def ran_both(definition, argument):
            common.write(f"{folder}/d", definition)
            common.write(f"{folder}/a", argument)
            return ran(args.mbex, folder), ran(args.original, folder)

        for number, patterns, templates, argument, definition, ours, theirs in cases(
            maker, args.count, lambda theirs: not args.failing or theirs[1] == 1, ran_both
        ):
            statuses[ours[1]] = statuses.get(ours[1], 0) + 1
            if ours == theirs:
                continue
            differ += 1
            reasons = reasons_of(patterns, templates, ours, theirs)
            unexplained += not reasons
            print(f"{number}: {definition}\n  on: {argument}\n  may be: {', '.join(reasons) or 'NONE'}")
            print(f"  mbex {ours[1]}: {ours[0]!r}\n  original {theirs[1]}: {theirs[0]!r}")
    print(f"{args.count} runs, by status {dict(sorted(statuses.items()))}: {differ} differ, "
          f"{unexplained} with no line for it")
    return common.finish(args.count - unexplained, unexplained)


if __name__ == "__main__":
    sys.exit(main())
