#!/usr/bin/env python3
"""Compares `mbex` with the original in speed and memory: instructions and bytes for each token.

ORIGINAL is a program with the command line of `mbex` over rust-analyzer's crate. For speed, build
it with the same optimizations. Each run lexes both texts, reads the definition, expands, and
prints. Both programs must print the same text.

The script prints a table in Markdown. Its rows are cases and sizes. Its columns are:

- The instructions a token of each program, by valgrind's callgrind, and their ratio. A token is a
  flat token of both texts together. This count is the same on a busy machine.
- The bytes of memory a token at the peak, above what the program takes for an empty argument.
- With --requests, requests for memory a token.
- With --times, nanoseconds a token: the least of nine runs, above the least of an empty argument.
  This needs a machine that does nothing else.

Other options ask for other tables:

--phases    The phases of a run, of these cases at 5,000 and of some more. The phase "Lexing" is a
            run in which no rule has the style of the call, without a run on nothing. The phase
            "Reading" is a run of the rules with that style, without the lexing; checking and
            dropping count. The phase "Matching" is what a run with empty templates takes more;
            bindings count. The phase "Writing" is what a run with the templates takes more; the
            printed text counts.
--reading   Reading a definition alone, with checking and dropping. The script runs rules of which
            none has the style of the call, and subtracts a run that only lexes the same text. A
            token is a flat token of the pattern.
--calls     Calls that fail and calls that match: millions of instructions of a whole run, and of
            matching and writing alone. ORIGINAL may be an older `mbex`.
--optional  The most memory of a run in megabytes, and its seconds. The first case is N times
            `$(a)?` on N times `a`. The second case is N parts `$(k $x:ident)?`, each with its own
            `k` and `$x`, on N times `k v`. A program that doesn't end with an answer has "none".
--lexing    Lexing alone: a run whose only rule takes nothing, on a text of about N bytes, without
            one on no text. A token is a flat token of the text, and a literal is one token.
"""
import os
import re
import statistics
import subprocess
import sys
import time

sys.path.insert(0, os.path.dirname(os.path.dirname(os.path.abspath(__file__))))
import common  # noqa: E402

SIZES = (2_000, 20_000, 65_535)
LEXED_SIZES = (524_288,)
OPTIONAL_SIZES = (10, 14, 18, 500, 1_000, 2_000, 4_000)


def words(count, name="a"):
    return [f"{name}{i % 97}" for i in range(count)]


def rules(count, pattern, template, last="last"):
    """Rules that begin with another word than the argument and don't match, and a last rule that begins with the
    argument's word."""
    return [(pattern.format(word), template) for word in [f"w{i}" for i in range(count - 1)] + [last]]


PLAIN = ("{} $x:ident = $y:tt", "a $x b $y")
REPEATING = ("{} $( $x:ident = $y:tt ),* $(;)?", "$( $x $y )*")


def plain_rules(n):
    return rules(n // 14, *PLAIN), "last p = 1"


def repeating_rules(n):
    return rules(n // 29, *REPEATING), "last p = 1, q = 2"


def long_pattern(n):
    names = [f"$x{i}:ident" if i % 10 == 0 else f"t{i % 53}" for i in range(n)]
    return one(" ".join(names)), " ".join("q" if i % 10 == 0 else f"t{i % 53}" for i in range(n))


def one(pattern, template=""):
    return [(pattern, template)]


def same(text):
    """A pattern that is its own argument."""
    return one(text), text


def puncts(n):
    return same(" ".join("+ - *".split()[i % 3] for i in range(n)))


def groups(n):
    return same(" ".join("( " * 100 + ") " * 100 for _ in range(max(1, n // 200))))


def fragments(n):
    # Each kind that a grammar parses, one after another.
    kinds = [("$x{}:ty;", "u8;"), ("$x{}:expr;", "a + 1;"), ("$x{}:path;", "a::b;"), ("$x{}:pat;", "(b);")]
    count = max(1, n // 12)
    pattern = " ".join(kinds[i % 4][0].format(i) for i in range(count))
    return one(pattern), " ".join(kinds[i % 4][1] for i in range(count))


def nested(n):
    lists = [" ".join(words(100)) for _ in range(max(1, n // 100))]
    return one("$($($x:ident)*);*", "$($($x)*)*"), ";".join(lists)


def expressions(n):
    return one("$($x:ident = $e:expr;)*"), " ".join(f"{word} = {i % 9} + b;" for i, word in enumerate(words(n)))


def many_rules_of_an_expression(n):
    return rules(200, "$e:expr ; {}", "$e"), " + ".join(words(n // 2)) + " ; last"


# What makes the rules, each a pattern and a template, and the argument, of a size.
CASES = {
    "plain rules, the last of which fits": plain_rules,
    "rules with repetitions, the last of which fits": repeating_rules,
    "a long pattern, every tenth a variable": long_pattern,
    "a pattern of puncts": puncts,
    "groups 100 deep": groups,
    "fragments of the grammar": fragments,
    "`($($x:ident),*) => {}`": lambda n: (one("$($x:ident),*"), ",".join(words(n))),
    "`($($x:ident)*) => {$($x)*}`": lambda n: (one("$($x:ident)*", "$($x)*"), " ".join(words(n))),
    "`($($x:ident = $e:expr;)*) => {}`": expressions,
    "repetitions in repetitions": nested,
    "two lists side by side": lambda n: (
        one("$($x:ident)* ; $($y:ident)*", "$($x $y)*"),
        f"{' '.join(words(n))} ; {' '.join(words(n, 'b'))}",
    ),
    "counts": lambda n: (one("$($x:ident)*", "${count($x)} $(${index()} ${len()})*"), " ".join(words(n))),
    "a list of expressions": lambda n: (one("$($e:expr),*", "[$($e),*]"), ", ".join(f"{w} + 1" for w in words(n))),
    "200 rules with an expression": many_rules_of_an_expression,
    "one `$x:tt`": lambda n: (one("$x:tt", "$x"), f"({' '.join(words(n))})"),
}


def different(count, name="n"):
    return [f"{name}{i}" for i in range(count)]


THOUSAND = " ".join(different(999, "t"))
VARIABLES = " ".join(f"$v{i}:tt" for i in range(250))
SKIPPED = " ".join(f"$v{i}:ident" if i % 5 == 1 else f"w{i}" for i in range(500))
FIVE = " ".join(f"${it}:ident" for it in "abcde")

# More cases for the table of phases.
PHASES = {
    "200 plain rules, the last of which fits": (rules(200, *PLAIN), "last p = 1"),
    "200 plain rules, none of which fits": (rules(200, *PLAIN), "other p = 1"),
    "10,000 plain rules, the last of which fits": (rules(10_000, *PLAIN), "last p = 1"),
    "10,000 rules with repetitions, the last of which fits": (rules(10_000, *REPEATING), "last p = 1, q = 2"),
    "50 rules of 1,000 words, the last of which fits": (rules(50, "{} " + THOUSAND, "done"), "last " + THOUSAND),
    "50 rules of 250 variables, the last of which fits": (rules(50, "{} " + VARIABLES, "done"), "last " + " ".join(different(250, "t"))),
    "`$($(500 words)? a)*` on 2,000 `a`": (one("$($(" + " ".join(different(500, "w")) + ")? a)*"), "a " * 2_000),
    "`$($(400 words, 100 variables)? a)*` on 2,000 `a`": (one(f"$($({SKIPPED})? a)*"), "a " * 2_000),
    "`$($x:ident),*` of 5,000 names, each another": (one("$($x:ident),*"), ", ".join(different(5_000))),
    "`$($x:ident),*` of 5,000 names, each another, written": (one("$($x:ident),*", "$($x)*"), ", ".join(different(5_000))),
    "five variables a round, 1,000 rounds, written": (one(f"$({FIVE});*", "$($a $b $c $d $e)*"), ";".join(["a b c d e"] * 1_000)),
    "500 times `$($x:ident)?` on nothing": (one(" ".join(f"$($x{i}:ident)?" for i in range(500))), ""),
    "5,000 words": same(" ".join(words(5_000))),
    "5,000 literals": same(" ".join(str(i % 97) for i in range(5_000))),
    "500 times `$x:expr;`": (one(" ".join(f"$x{i}:expr;" for i in range(500))), "a + 1; " * 500),
    "a template of 20,000 words": (one("", " ".join(words(20_000))), ""),
}


# Patterns for reading alone.
PATTERNS = {
    "words": lambda n: " ".join(words(n)),
    "words, every tenth a variable": lambda n: " ".join(f"$x{i}:ident" if i % 10 == 0 else f"t{i % 53}" for i in range(n * 10 // 13)),
    "literals": lambda n: " ".join(str(i % 97) for i in range(n)),
    "puncts": lambda n: " ".join("+ - *".split()[i % 3] for i in range(n)),
    "`$x:ty;` again and again": lambda n: " ".join(f"$x{i}:ty;" for i in range(n // 5)),
    "`$($x:ident = $y:tt),*;` again and again": lambda n: " ".join(f"$($x{i}:ident = $y{i}:tt),*;" for i in range(n // 14)),
    "groups 100 deep": lambda n: " ".join("( " * 100 + ") " * 100 for _ in range(max(1, n // 200))),
}


# Calls that fail, and calls that match: how many threads meet at one state, the pattern, and the argument.
CALLS = {
    "fails: `$(a)* $(a)* c` on 20,000 `a`": ("three", "$(a)* $(a)* c", "a " * 20_000),
    "fails: `$(a)* $(a)* $(a)* $(a)* c` on 20,000 `a`": ("three", "$(a)* $(a)* $(a)* $(a)* c", "a " * 20_000),
    "fails: `$(a)* $(a)*` on 20,000 `a`": ("three", "$(a)* $(a)*", "a " * 20_000),
    "fails: `$($(a)* $(a)* c),*` on 5,000 times `a a a c,` and `a d`": ("three", "$($(a)* $(a)* c),*", "a a a c, " * 5_000 + "a d"),
    "fails: 300 times `$(a)?` on 300 `a` and `b`": ("three", "$(a)? " * 300, "a " * 300 + "b"),
    "fails: `$($x:ident),*` on 20,000 names and `, 1`": ("two", "$($x:ident),*", ",".join(words(20_000)) + ", 1"),
    "fails: `$($k:ident = $v:expr;)*` on 20,000 and `x =`": ("two", "$($k:ident = $v:expr;)*", expressions(20_000)[1] + " x ="),
    "fails: `{ $($f:ident : $t:ty),* }` on 20,000 fields and `f`": (
        "two",
        "{ $($f:ident : $t:ty),* }",
        "{ " + "".join(f"{it} : u8, " for it in words(20_000)) + "f }",
    ),
    "fits: `$($x:ident),*` on 20,000 names": ("two", "$($x:ident),*", ",".join(words(20_000))),
    "fits: `$($k:ident = $v:expr;)*` on 20,000": ("two", "$($k:ident = $v:expr;)*", expressions(20_000)[1]),
    "fits: `$(a)* $(b)*` on 10,000 of each": ("two", "$(a)* $(b)*", "a " * 10_000 + "b " * 10_000),
    "fits: 300 times `$(a)?` on 300 `a`": ("three", "$(a)? " * 300, "a " * 300),
}


def definition(pairs, style=""):
    """The text of rules, each a pattern and a template."""
    return "; ".join(f"{style}({pattern}) => {{{template}}}" for pattern, template in pairs)


def flat_tokens(text):
    """The number of words, and of other chars except spaces. A `$` before a word counts by itself."""
    return len(re.findall(r"\w+|[^\w\s]", text))


# Callgrind counts each byte that `rep movsb` copies or `rep stosb` fills as an instruction. The C library uses these
# for long copies and fills. With this setting it uses vectors.
BY_VECTORS = {
    "GLIBC_TUNABLES": "glibc.cpu.x86_rep_movsb_threshold=1000000000:glibc.cpu.x86_rep_stosb_threshold=1000000000"
}


def instructions(command):
    return common.instructions(command, env=os.environ | BY_VECTORS)


def requests(command):
    it = common.run(["valgrind", "--tool=memcheck", *command])
    return int(re.search(r"total heap usage: ([\d,]+) allocs", it.stderr)[1].replace(",", ""))


def peak(command):
    """The most memory of a run, in bytes. It is the median of nine runs, since the number of the program's own pages in
    memory differs from run to run. A child of this script would also count the script's memory, so `time` starts the
    program."""

    def once():
        it = subprocess.run(["/usr/bin/time", "-f", "%M", *command], stdout=subprocess.DEVNULL, stderr=subprocess.PIPE, check=False)
        return int(it.stderr.split()[-1]) * 1024

    return statistics.median(once() for _ in range(9))


def nanoseconds(command):
    """The least time of nine runs, from the start of the program to its end."""
    least = float("inf")
    for _ in range(9):
        begin = time.perf_counter_ns()
        subprocess.run(command, stdout=subprocess.DEVNULL, check=False)
        least = min(least, time.perf_counter_ns() - begin)
    return least


def printed(command):
    return common.run(command, binary=True).stdout


def command_of(folder, program, rule, argument):
    """Writes both texts into the folder, for a run of the program on them."""
    common.write(f"{folder}/def", rule)
    common.write(f"{folder}/arg", argument)
    return [program, f"{folder}/def", f"{folder}/arg"]


def readings(both, sizes, folder):
    """The table of reading alone: instructions and memory of reading a pattern, a token of it."""
    def run(program, rule, argument):
        command = command_of(folder, program, rule, argument)
        return instructions(command), peak(command)

    print("| Pattern | Size | Instructions a token of reading | Original's | Ratio | Bytes a token of reading | Original's |")
    print("|---|---|---|---|---|---|---|")
    for name, make in PATTERNS.items():
        for size in sizes:
            pattern = make(size)
            rule = f"attr() ({pattern}) => {{}}"
            taken = []
            for program in both:
                whole, lexed = run(program, rule, "zzz"), run(program, "() => {}", rule)
                taken.append([(more - less) / flat_tokens(pattern) for more, less in zip(whole, lexed)])
            (ours, bytes_ours), (others, bytes_others) = taken
            row = [name, f"{size:,}", f"{ours:,.0f}", f"{others:,.0f}", f"{ours / others:.2f}", f"{bytes_ours:,.0f}", f"{bytes_others:,.0f}"]
            print("| " + " | ".join(row) + " |", flush=True)


def calls(both, asked, folder):
    """The table of calls that fail and calls that match."""
    def run(program, rule, argument):
        return instructions(command_of(folder, program, rule, argument)) / 1e6

    print("| Call | Threads that meet at a state | Whole run, millions | Original's | Ratio | Matching and writing | Original's | Ratio |")
    print("|---|---|---|---|---|---|---|---|")
    for name, (beginnings, pattern, argument) in CALLS.items():
        if asked and not any(word in name for word in asked):
            continue
        whole = [run(it, f"({pattern}) => {{}}", argument) for it in both]
        unmatched = [run(it, f"attr() ({pattern}) => {{}}", argument) for it in both]
        alone = [more - less for more, less in zip(whole, unmatched)]
        row = [name, beginnings]
        for ours, others in (whole, alone):
            row += [f"{ours:,.1f}", f"{others:,.1f}", f"{ours / others:.2f}"]
        print("| " + " | ".join(row) + " |", flush=True)


def optional(both, sizes, folder):
    """The table of patterns of optional tokens, each of which may match any token of the argument."""
    def run(program, rule, argument):
        command = ["/usr/bin/time", "-f", "%M %U", *command_of(folder, program, rule, argument)]
        it = subprocess.run(command, stdout=subprocess.DEVNULL, stderr=subprocess.PIPE, check=False)
        memory, seconds = it.stderr.split()[-2:]
        return ["none" if it.returncode else f"{int(memory) / 1024:,.0f}", seconds.decode()]

    for part, given in (("$(a)? ", "a "), ("$(k{0} $x{0}:ident)? ", "k{0} v ")):
        print(f"\n{part}\n\n| n | Megabytes | Seconds | Original's megabytes | Original's seconds |")
        print("|---|---|---|---|---|")
        for size in sizes:
            pattern, argument = ("".join(text.format(number) for number in range(size)) for text in (part, given))
            taken = [value for it in both for value in run(it, f"({pattern}) => {{}}", argument)]
            print("| " + " | ".join([f"{size:,}", *taken]) + " |", flush=True)


def function(number):
    """A function as in a source file, with names and literals of its own."""
    head = f"pub fn f{number}(x: u32, y: &str) -> Option<u32> {{ let z = x + {number};"
    return f'{head} if z > 10 {{ return None; }} g("a{number}", z, y) }}\n'


# What a text is made of, again and again, each with its number.
LEXED = {
    "functions": function,
    "names, each another": lambda number: f"name{number} ",
    "words of three letters": lambda number: ("one ", "two ", "ten ")[number % 3],
    "numbers": lambda number: f"{number} ",
    "texts": lambda number: f'"text {number}" ',
    "puncts": lambda number: "+ - = ; "[number % 4 * 2 :][:2],
    "sides of groups": lambda number: "() [] {} "[number % 3 * 3 :][:3],
}


def lexing(both, sizes, folder):
    """The table of lexing alone."""
    def run(program, text):
        return instructions(command_of(folder, program, "attr() () => {}", text))

    print("| Text | Bytes | Tokens | Instructions a token of lexing | Original's | Ratio |")
    print("|---|---|---|---|---|---|")
    for name, part in LEXED.items():
        for size in sizes:
            parts = []
            while size > 0:
                parts.append(part(len(parts)))
                size -= len(parts[-1])
            text = "".join(parts)
            tokens = len(re.findall(r'"[^"]*"|\w+|[^\w\s]', text))
            ours, others = ((run(it, text) - run(it, "")) / tokens for it in both)
            print(f"| {name} | {len(text):,} | {tokens:,} | {ours:,.0f} | {others:,.0f} | {ours / others:.2f} |", flush=True)


def is_worth_a_ratio(our, other, least):
    """Whether a ratio of the two numbers means anything. Less than a hundredth of the run is only the tokens of the
    style and the printed error, and less than half a megabyte is only pages."""
    return min(our, other) > 0 and max(our, other) > least


# No call has this style, so a rule with it is read and not matched.
STYLE = "attr() "


def phases(both, asked, folder):
    """The table of the phases of a run."""
    def phases_of(program, rules_of_case, argument):
        def run(rule, text):
            return instructions(command_of(folder, program, rule, text)) / 1e6

        nothing = run(STYLE + "() => {}", "")

        def lexing(rule):
            return run(STYLE + "() => {}", f"{rule} {argument}") - nothing

        def parts(pairs):
            plain, styled = definition(pairs), definition(pairs, STYLE)
            lexed = lexing(plain)
            read = run(styled, argument) - nothing - lexing(styled)
            whole = run(plain, argument)
            return whole, lexed, read, whole - nothing - lexed - read

        whole, lexed, read, expanded = parts(rules_of_case)
        empty = [(pattern, "") for pattern, _ in rules_of_case]
        matched = expanded if empty == rules_of_case else parts(empty)[-1]
        memory = peak(command_of(folder, program, definition(rules_of_case), argument))
        return [whole, lexed, read, matched, expanded - matched], memory - peak(command_of(folder, program, "() => {}", ""))

    names = ["Whole run", "Lexing", "Reading", "Matching", "Writing"]
    print("| Case | " + " | ".join(f"{it}, millions, original's, ratio" for it in names) + " | Megabytes, original's, ratio |")
    print("|" + "---|" * (len(names) + 2))
    cases = {name: make(5_000) for name, make in CASES.items()} | PHASES
    for name, (pairs, argument) in cases.items():
        if asked and not any(word in name for word in asked):
            continue
        ours, others = (phases_of(it, pairs, argument) for it in both)
        row = [name]
        least = others[0][0] / 100
        for our, other, low in [*[(*it, least) for it in zip(ours[0], others[0])], (ours[1] / 2**20, others[1] / 2**20, 0.5)]:
            row.append(f"{our:,.2f}, {other:,.2f}, {our / other:.2f}" if is_worth_a_ratio(our, other, low) else "")
        print("| " + " | ".join(row) + " |", flush=True)


def runs(both, asked, folder):
    """The table of whole runs."""
    def files(rule, argument):
        return [command_of(folder, program, rule, argument) for program in both]

    empty = files("() => {}", "")
    least = [peak(it) for it in empty]
    shortest = [nanoseconds(it) for it in empty] if asked.times else []
    columns = ["Requests a token, original's"] * asked.requests + ["Nanoseconds a token, original's"] * asked.times
    more = "".join(f" {it} |" for it in columns)
    print(f"| Case | Size | Tokens | Instructions a token | Original's | Ratio | Bytes a token | Original's |{more}")
    print("|" + "---|" * (8 + len(columns)))
    for case, make in CASES.items():
        if asked.case and not any(word in case for word in asked.case):
            continue
        for size in asked.size or SIZES:
            pairs, argument = make(size)
            rule = definition(pairs)
            tokens = flat_tokens(rule) + flat_tokens(argument)
            commands = files(rule, argument)
            differ = "" if printed(commands[0]) == printed(commands[1]) else " (prints differ)"
            ours, others = (instructions(it) / tokens for it in commands)
            taken = [(peak(it) - base) / tokens for it, base in zip(commands, least)]
            row = [case + differ, f"{size:,}", f"{tokens:,}", f"{ours:,.0f}", f"{others:,.0f}", f"{ours / others:.2f}"]
            row += [f"{it:,.0f}" for it in taken]
            if asked.requests:
                row.append(", ".join(f"{requests(it) / tokens:.2f}" for it in commands))
            if asked.times:
                row.append(", ".join(f"{(nanoseconds(it) - base) / tokens:,.0f}" for it, base in zip(commands, shortest)))
            print("| " + " | ".join(row) + " |", flush=True)


def main():
    parser = common.arguments(__doc__)
    parser.add_argument("mbex", metavar="MBEX", type=os.path.abspath)
    parser.add_argument("original", metavar="ORIGINAL", type=os.path.abspath)
    parser.add_argument("--case", metavar="WORD", action="append",
                        help="measure the cases with this word in their name")
    parser.add_argument("--size", metavar="N", action="append", type=int, help="measure this size")
    parser.add_argument("--requests", action="store_true", help="count requests for memory too")
    parser.add_argument("--times", action="store_true", help="measure times too")
    table = parser.add_mutually_exclusive_group()
    for name in ("phases", "reading", "calls", "optional", "lexing"):
        table.add_argument(f"--{name}", action="store_true", help="print this table instead")
    asked = parser.parse_args()
    both = [asked.mbex, asked.original]
    with common.folder() as folder:
        if asked.reading:
            readings(both, asked.size or SIZES, folder)
        elif asked.calls:
            calls(both, asked.case, folder)
        elif asked.optional:
            optional(both, asked.size or OPTIONAL_SIZES, folder)
        elif asked.lexing:
            lexing(both, asked.size or LEXED_SIZES, folder)
        elif asked.phases:
            phases(both, asked.case, folder)
        else:
            runs(both, asked, folder)


if __name__ == "__main__":
    main()
