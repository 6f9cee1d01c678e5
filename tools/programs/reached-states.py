#!/usr/bin/env python3
"""Compares the states that `expandm --trace=json` prints for each rule with a reading of its own.

    python3 tools/programs/reached-states.py [--program EXPANDM] [--count N] [--seed SEED]

The script makes small random definitions from a seed, each with a call. A definition has one to
three rules. Their patterns have literals, operators, lifetimes, groups, variables (`tt`, `ident`,
`lifetime`, `literal`), and repetitions up to three deep, with and without separators. Most
arguments are made from a pattern, so that they match far, and many are changed then.

The script reads each argument by each pattern, as docs/MACROS.md, docs/EXPANDM.md and
crates/mbe_semantics/specs/Readings say. Partial readings go through a pattern part by part, and
through a repetition round by round. The script counts them at each state and offset.

It compares these with what the program prints of a call:

- which rules are listed;
- what a rule expects at each state, and which states it reaches at each offset;
- the same states in the page of `--html`;
- which rule applies, if one does;
- the kind of the error: a local ambiguity, several readings, a fault inside a fragment, or a token
  that no rule expected.

It also compares the notes of `--explain` on the rules of a failing call:

- whether a rule matches, matches in several ways, is ambiguous, or stops;
- where a rule is ambiguous or stops, and what it expects there.

The same seed gives the same calls. A call that differs is printed with its definition. The line
before the last says how many calls are expanded, and why the others aren't.
"""
import collections
import json
import os
import random
import re
import sys
from typing import NamedTuple, Optional

sys.path.insert(0, os.path.dirname(os.path.dirname(os.path.abspath(__file__))))
import common  # noqa: E402

BATCH = 250
CLOSING = {"(": ")", "[": "]", "{": "}"}
# The operators of the Rust Reference that have several characters, without those of comments.
OPERATORS = {
    "...", "..=", "<<=", ">>=", "-=", "!=", "*=", "&=", "%=", "^=", "+=", "<=", "==", ">=", "|=",
    "->", "=>", ">>", "<-", "::", "..", "&&", "<<", "||",
}


# ---- trees: of a pattern and of an argument

class Word(NamedTuple):
    """An identifier or a literal."""

    text: str
    is_literal: bool = False


class Operator(NamedTuple):
    """Puncts without spaces between them."""

    text: str


class Lifetime(NamedTuple):
    """A quote and a name, such as `'a`."""

    text: str


class Group(NamedTuple):
    """A group, with trees or parts of a pattern inside."""

    opening: str
    inside: list


class Variable(NamedTuple):
    """A variable of a pattern."""

    name: str
    kind: str


class Repetition(NamedTuple):
    """A repetition of a pattern. The separator is a tree, or `None`."""

    inside: list
    separator: Optional[tuple]
    operator: str


def text_of(trees):
    """The text of trees or of a pattern."""
    return " ".join(map(text_of_one, trees))


def text_of_one(tree):
    if isinstance(tree, Group):
        return f"{tree.opening} {text_of(tree.inside)} {CLOSING[tree.opening]}"
    if isinstance(tree, Variable):
        return f"${tree.name}:{tree.kind}"
    if isinstance(tree, Repetition):
        separator = tree.separator.text if tree.separator else ""
        return f"$({text_of(tree.inside)}){separator}{tree.operator}"
    return tree.text


# ---- the flat tokens of an argument

class Token(NamedTuple):
    """A flat token. `kind` is `word`, `literal`, `punct`, `opening` or `closing`.

    A punct is joint if the next punct follows it at once. `length` is the number of flat tokens of
    the tree that begins here.
    """

    kind: str
    text: str
    is_joint: bool = False
    length: int = 1


def flat(trees):
    """The flat tokens of trees."""
    tokens = []
    for tree in trees:
        if isinstance(tree, Group):
            inside = flat(tree.inside)
            tokens += [Token("opening", tree.opening, length=len(inside) + 2), *inside,
                       Token("closing", CLOSING[tree.opening])]
        elif isinstance(tree, Operator):
            last = len(tree.text) - 1
            tokens += [Token("punct", it, at < last) for at, it in enumerate(tree.text)]
        elif isinstance(tree, Lifetime):
            tokens += [Token("punct", "'", True), Token("word", tree.text[1:])]
        else:
            tokens.append(Token("literal" if tree.is_literal else "word", tree.text))
    return tokens


class Argument:
    """The flat tokens of an argument, and what matches at an offset."""

    def __init__(self, trees):
        self.tokens = flat(trees)

    def at(self, offset):
        """The token at an offset. At the end it is a token of a kind of its own."""
        return self.tokens[offset] if offset < len(self.tokens) else Token("end", "")

    def operator(self, offset):
        """The longest operator that the puncts at an offset are, or the punct alone."""
        text = ""
        for at in range(offset, offset + 3):
            if self.at(at).kind != "punct":
                break
            text += self.at(at).text
            if not self.at(at).is_joint:
                break
        return next((text[:n] for n in (3, 2) if text[:n] in OPERATORS), text[:1])

    def token(self, tree, offset):
        """How many flat tokens a token or a separator matches at an offset. 0 if it doesn't."""
        first = self.at(offset)
        if isinstance(tree, Operator):
            return len(tree.text) if self.operator(offset) == tree.text else 0
        if isinstance(tree, Lifetime):
            return 2 if self.lifetime(offset) == tree.text else 0
        kind = "literal" if tree.is_literal else "word"
        return 1 if (first.kind, first.text) == (kind, tree.text) else 0

    def lifetime(self, offset):
        """The lifetime at an offset, or `None`."""
        is_one = self.at(offset)[:2] == ("punct", "'") and self.at(offset + 1).kind == "word"
        return "'" + self.at(offset + 1).text if is_one else None

    def has_literal(self, offset):
        """Whether a literal without a sign, `true` or `false` is at an offset."""
        token = self.at(offset)
        return token.kind == "literal" or token.kind == "word" and token.text in ("true", "false")

    def fragment(self, kind, offset):
        """How many flat tokens a variable of a kind matches at an offset. 0 if it doesn't."""
        token = self.at(offset)
        if kind == "ident":
            return 1 if token.kind == "word" and token.text != "_" else 0
        if kind == "lifetime":
            return 2 if self.lifetime(offset) else 0
        if kind == "literal":
            has_minus = token[:2] == ("punct", "-")
            return 1 + has_minus if self.has_literal(offset + has_minus) else 0
        if token.kind in ("end", "closing"):
            return 0
        if token.kind != "punct":
            return token.length
        return 2 if self.lifetime(offset) else len(self.operator(offset))

    def starts(self, text, first):
        """The bytes of a text at which the tokens begin, and the byte after them.

        The tokens begin at the byte `first` or later.
        """
        found = []
        for token in [*self.tokens, Token("end", "")]:
            first = len(text) - len(text[first:].lstrip(" "))
            found.append(first)
            first += len(token.text)
        return found


# ---- patterns as states

class Part(NamedTuple):
    """A part of a pattern. `state` is the state before it, and `end` the one at its end inside."""

    state: int
    tree: tuple
    inside: list
    end: int


class Pattern:
    """The parts of a pattern, with their states in its order.

    `expected` says what is expected at each state. `steps` has what a partial reading may consume
    there: a tree, `"closing"`, or `None`.
    """

    def __init__(self, trees):
        self.expected, self.steps = [], []
        self.parts = self.read(trees)
        self.end = self.state("the end of the call", None)

    def state(self, expected, step):
        self.expected.append(expected)
        self.steps.append(step)
        return len(self.steps) - 1

    def read(self, trees):
        return [part for tree in trees for part in self.parts_of(tree)]

    def parts_of(self, tree):
        if isinstance(tree, Lifetime):
            # A lifetime of a pattern is two parts: a quote and a name.
            return self.read([Operator("'"), Word(tree.text[1:])])
        if isinstance(tree, Group):
            state = self.state(f"`{tree.opening}`", tree)
            inside = self.read(tree.inside)
            return [Part(state, tree, inside, self.state("the end of the group", "closing"))]
        if isinstance(tree, Repetition):
            state = self.state(None, None)
            inside = self.read(tree.inside)
            # After a round, only a separator consumes tokens. A `?` has no other round.
            next_round = tree.separator if tree.operator != "?" else None
            expected = f"`{next_round.text}`" if next_round else None
            return [Part(state, tree, inside, self.state(expected, next_round))]
        return [Part(self.state(f"`{text_of_one(tree)}`", tree), tree, [], 0)]


# ---- readings

class Verdict(NamedTuple):
    """`one`, `several`, `ambiguous` or `stuck`, and the offset where that is so."""

    name: str
    offset: int


class Reading:
    """The partial readings of an argument by a pattern: how many are at each offset and state."""

    def __init__(self, pattern, argument):
        self.pattern, self.argument = pattern, argument
        self.counts = collections.Counter()
        self.ends = self.through(pattern.parts, pattern.end, {0: 1})
        self.reached = self.by_offset()

    def note(self, state, starts):
        """Adds partial readings, by their offsets, to those at a state."""
        for offset, count in starts.items():
            self.counts[offset, state] += count

    def through(self, parts, end, starts):
        """The partial readings at the end of parts, by offset, for those before the first part."""
        for part in parts:
            self.note(part.state, starts)
            starts = self.over(part, starts)
        self.note(end, starts)
        return starts

    def over(self, part, starts):
        """The partial readings after a part, for those before it."""
        if isinstance(part.tree, Repetition):
            return self.over_rounds(part, starts)
        after = self.stepped(part.tree, starts)
        if not isinstance(part.tree, Group):
            return after
        return self.stepped("closing", self.through(part.inside, part.end, after))

    def over_rounds(self, part, starts):
        """The partial readings after a repetition, round by round."""
        repetition = part.tree
        ends = collections.Counter({} if repetition.operator == "+" else starts)
        while starts:
            starts = self.through(part.inside, part.end, starts)
            ends.update(starts)
            if repetition.operator == "?":
                break
            if repetition.separator:
                starts = self.stepped(repetition.separator, starts)
        return ends

    def stepped(self, tree, starts):
        """The partial readings after a step over tokens, for those before it."""
        after = collections.Counter()
        for offset, count in starts.items():
            width = self.width(tree, offset)
            if width:
                after[offset + width] += count
        return after

    def width(self, step, offset):
        """How many flat tokens a step consumes at an offset. 0 if it isn't possible there."""
        if step is None:
            return 0
        if step == "closing":
            return 1 if self.argument.at(offset).kind == "closing" else 0
        if isinstance(step, Group):
            return 1 if self.argument.at(offset)[:2] == ("opening", step.opening) else 0
        if isinstance(step, Variable):
            return self.argument.fragment(step.kind, offset)
        return self.argument.token(step, offset)

    def by_offset(self):
        """The states at each offset, up to the last one that is reached."""
        last = max(offset for offset, _ in self.counts)
        found = [[] for _ in range(last + 1)]
        for offset, state in sorted(self.counts):
            found[offset].append(state)
        return found

    def listed(self):
        """The states at each offset at which something is expected."""
        expected = self.pattern.expected
        return [[it for it in states if expected[it]] for states in self.reached]

    def ambiguities(self, offset):
        """What is expected by each two partial readings at an offset that are a local ambiguity."""
        found, others = [], []
        for state in self.reached[offset]:
            step = self.pattern.steps[state]
            width, is_fragment = self.width(step, offset), isinstance(step, Variable)
            if not width:
                continue
            text = self.pattern.expected[state]
            if is_fragment and self.counts[offset, state] > 1:
                found.append(sorted([text, text]))
            for other, other_width, is_other_fragment in others:
                if is_fragment or is_other_fragment or width != other_width:
                    found.append(sorted([text, other]))
            others.append((text, width, is_fragment))
        return found

    def verdict(self):
        """The first local ambiguity, or else how many readings there are, or where they stop."""
        for offset in range(len(self.reached)):
            if self.ambiguities(offset):
                return Verdict("ambiguous", offset)
        size = len(self.argument.tokens)
        if not self.ends.get(size):
            return Verdict("stuck", len(self.reached) - 1)
        return Verdict("one" if self.ends[size] == 1 else "several", size)

    def fails_inside(self, offset):
        """Whether a literal is expected at an offset, where its `-` is without a literal."""
        steps = [self.pattern.steps[state] for state in self.reached[offset]]
        return self.argument.at(offset)[:2] == ("punct", "-") and any(
            isinstance(it, Variable) and it.kind == "literal" and not self.width(it, offset)
            for it in steps)


# ---- what is printed of a call

# What the error of a failing call is like, by the word for its result.
ERRORS = {
    "ambiguous": r"local ambiguity when calling macro `\w+`: .*",
    "several": r"ambiguity: multiple successful parses",
    "inside": r".* in the call of `\w+!`",
    "stuck": r"no rules expected `[^`]+`",
    "ended": r"unexpected end of macro invocation",
}


class Wanted(NamedTuple):
    """What has to be printed of a call.

    `result` is `expanded` or a key of `ERRORS`. `rule` is the rule that applies, or `None`. There
    are readings for all rules, of which `listed` are in the data. The explanation of a failing
    call has a note for each rule.
    """

    result: str
    rule: Optional[int]
    readings: list
    listed: int
    notes: list


def wanted(case):
    """What has to be printed of a call."""
    argument = Argument(case.argument)
    readings = [Reading(Pattern(it), argument) for it in case.patterns]
    verdicts = [it.verdict() for it in readings]
    for rule, (reading, verdict) in enumerate(zip(readings, verdicts), 1):
        if verdict.name == "one":
            return Wanted("expanded", rule, readings, rule, [])
        if verdict.name != "stuck" or reading.fails_inside(verdict.offset):
            result = "inside" if verdict.name == "stuck" else verdict.name
            break
    else:
        is_ended = max(it.offset for it in verdicts) == len(argument.tokens)
        result = "ended" if is_ended else "stuck"
    notes = [note_of(*it) for it in zip(readings, verdicts)]
    return Wanted(result, None, readings, len(readings), notes)


class Note(NamedTuple):
    """The note on a rule: the front of its message, and the lists of which one is the rest.

    No lists mean that the rest isn't compared. No offset means that its location isn't.
    """

    front: str
    lists: list
    offset: Optional[int]


def note_of(reading, verdict):
    if verdict.name == "one":
        return Note("matches", [[]], None)
    if verdict.name == "several":
        return Note("matches the call in several ways: here it can continue with ", [], None)
    if verdict.name == "ambiguous":
        pairs = reading.ambiguities(verdict.offset)
        return Note("is ambiguous here: it can continue with ", pairs, verdict.offset)
    states = reading.listed()[verdict.offset]
    listed = sorted(reading.pattern.expected[it] for it in states)
    return Note("stops here; expected ", [listed], verdict.offset)


# ---- random definitions and calls

WORDS = ["a", "a", "b", "c", "r#a", "true", "_"]
LITERALS = ["1", "1", '"s"', "1u8"]
PUNCTS = [",", ";", "=", "=>", "-", "->", "+", "::", "&&", "..=", "!"]
LIFETIMES = ["'a", "'a", "'b", "'_"]
SEPARATORS = [
    None, None, None, Operator(","), Operator(","), Operator(";"), Operator("=>"), Operator("-"),
    Word("a"), Word("true"), Word("1", True), Lifetime("'a"),
]
KINDS = ["tt", "ident", "ident", "lifetime", "literal", "literal"]
DEPTH = 3
MOST = 150


class Case(NamedTuple):
    """A definition and a call of it."""

    name: str
    patterns: list
    argument: list
    brackets: str

    def texts(self):
        rules = "; ".join(f"({text_of(it)}) => {{}}" for it in self.patterns)
        call = f"{self.name}!{self.brackets} {text_of(self.argument)} {CLOSING[self.brackets]}"
        semicolon = "" if self.brackets == "{" else ";"
        return f"macro_rules! {self.name} {{ {rules} }}", call + semicolon


def may_be_empty(tree):
    """Whether a part of a pattern can match no token."""
    if not isinstance(tree, Repetition):
        return False
    return tree.operator != "+" or all(map(may_be_empty, tree.inside))


class Maker:
    """Makes definitions and calls from a seed."""

    def __init__(self, seed):
        self.random = random.Random(seed)
        self.names = 0

    def is_one_of(self, count):
        return self.random.randrange(count) == 0

    # ---- patterns

    def pattern(self, depth):
        least = 0 if depth == DEPTH else 1
        parts = [self.part(depth) for _ in range(self.random.randint(least, 3))]
        if depth and self.is_one_of(6):
            # Two repetitions that may match one word: several readings.
            parts += [Repetition([Word("a")], None, self.random.choice("*?")) for _ in range(2)]
        return parts

    def part(self, depth):
        turn = self.random.random()
        if turn < 0.35 and depth > 0:
            return self.repetition(depth)
        if turn < 0.45 and depth > 0:
            return Group(self.random.choice("([{"), self.pattern(depth - 1))
        if turn < 0.7:
            self.names += 1
            return Variable(f"x{self.names}", self.random.choice(KINDS))
        return self.leaf()

    def repetition(self, depth):
        inside = self.pattern(depth - 1)
        operator, separator = self.random.choice("**++?"), self.random.choice(SEPARATORS)
        if operator == "?" and not self.is_one_of(4):
            separator = None
        if separator is None and all(map(may_be_empty, inside)):
            inside.append(self.leaf())
        return Repetition(inside, separator, operator)

    def leaf(self):
        texts = self.random.choice((WORDS, WORDS, LITERALS, PUNCTS, PUNCTS, LIFETIMES))
        text = self.random.choice(texts)
        if texts is PUNCTS:
            return Operator(text)
        return Lifetime(text) if texts is LIFETIMES else Word(text, texts is LITERALS)

    def variant(self, pattern):
        """The pattern with another part in place of one, or at its end."""
        parts = list(pattern)
        at = self.random.randrange(len(parts) + 1)
        parts[at:at + 1] = [self.part(1)]
        return parts

    def patterns(self):
        found = [self.pattern(DEPTH)]
        for _ in range(self.random.randint(0, 2)):
            is_new = self.is_one_of(2)
            found.append(self.pattern(DEPTH) if is_new else self.variant(found[-1]))
        return found

    # ---- arguments

    def sample(self, pattern):
        return [tree for part in pattern for tree in self.sample_of(part)]

    def sample_of(self, part):
        """Trees that a part matches, most of the time."""
        if isinstance(part, Group):
            return [Group(part.opening, self.sample(part.inside))]
        if isinstance(part, Variable):
            return self.fragment(part.kind)
        if not isinstance(part, Repetition):
            return [part]
        least, most = {"*": (0, 3), "+": (1, 3), "?": (0, 1)}[part.operator]
        if self.is_one_of(6):
            least, most = 0, 2
        rounds = self.random.randint(least, most)
        trees = []
        for number in range(rounds):
            has_separator = part.separator and (number > 0) != self.is_one_of(20)
            trees += [part.separator] if has_separator else []
            trees += self.sample(part.inside)
        return trees + ([part.separator] if part.separator and self.is_one_of(10) else [])

    def fragment(self, kind):
        if kind == "ident":
            return [Word(self.random.choice(WORDS))]
        if kind == "lifetime":
            return [Lifetime(self.random.choice(LIFETIMES))]
        if kind == "literal":
            sign = [Operator("-")] if self.is_one_of(3) else []
            return [*sign, Word(self.random.choice(LITERALS), True)]
        return [self.tree()]

    def tree(self):
        if self.is_one_of(5):
            trees = [self.leaf() for _ in range(self.random.randint(0, 2))]
            return Group(self.random.choice("([{"), trees)
        if self.is_one_of(12):
            # Operators without a space between them.
            return Operator(self.random.choice(["&&&", "=>=", ",,"]))
        return self.leaf()

    def changed(self, trees):
        """The trees with one change, at their top or in a group."""
        trees = list(trees)
        at = self.random.randrange(len(trees) + 1)
        if at < len(trees) and isinstance(trees[at], Group) and not self.is_one_of(3):
            trees[at] = Group(trees[at].opening, self.changed(trees[at].inside))
            return trees
        turn = self.random.randrange(7)
        here = trees[at:at + 1]
        if turn == 0:
            here = []
        elif turn == 1:
            here = here + here
        elif turn == 2:
            here = [self.tree(), *here]
        elif turn == 3:
            here = [self.tree()]
        elif turn == 4:
            here = [Group(self.random.choice("([{"), here)]
        elif turn == 5 and here and isinstance(here[0], Group):
            here = here[0].inside
        elif turn == 6:
            return trees[:at]
        return trees[:at] + here + trees[at + 1:]

    def argument(self, patterns):
        trees = self.sample(self.random.choice(patterns))
        for _ in range(self.random.choice([0, 0, 1, 1, 2])):
            trees = self.changed(trees)
        return trees

    def case(self, number):
        """A case whose argument isn't long."""
        self.names = 0
        patterns = self.patterns()
        argument = self.argument(patterns)
        while len(flat(argument)) > MOST:
            argument = self.argument(patterns)
        return Case(f"m{number}", patterns, argument, self.random.choice("([{"))


# ---- runs

class Printed(NamedTuple):
    """What the program prints of a call.

    `data` is its data, and `page` the texts of reached states in its part of the page. `notes` are
    on rules, each with its byte in the file. The call's argument begins at the byte `first`.
    """

    data: dict
    page: list
    notes: dict
    text: str
    first: int


def printed(program, room, cases):
    """What the program prints of the calls of these cases, in their order."""
    text = "".join(f"{line}\n" for case in cases for line in case.texts())
    path, page = f"{room}/calls.rs", f"{room}/calls.html"
    common.write(path, text)
    ran = common.run([program, "--trace=json", "--explain", "--json", path])
    common.run([program, "--html", page, path])
    lines = map(json.loads, ran.stdout.splitlines())
    data = {it["macro"]: it for it in lines if it["reason"] == "call"}
    parts = re.split('<details class="call', common.read(page))[1:]
    tracks = [re.findall('data-states="([^"]*)"', it) for it in parts]
    if not len(data) == len(tracks) == len(cases):
        sys.exit(f"{len(cases)} calls, {len(data)} in the data, {len(tracks)} in the page")
    notes = notes_of(cases, ran.stderr)
    for number, case in enumerate(cases):
        call = f"\n{case.name}!{case.brackets}"
        first = text.index(call) + len(call)
        yield Printed(data[case.name], tracks[number], notes[case.name], text, first)


def notes_of(cases, lines):
    """The notes on rules among diagnostics, by macro and rule: the message, and its byte."""
    notes = {case.name: {} for case in cases}
    of_rule = re.compile(r"rule (\d+) of `(\w+)!` ((?:matches|is ambiguous|stops).*)")
    for it in common.reports(lines):
        found = of_rule.match(it["message"])
        if found:
            notes[found[2]][int(found[1])] = found[3], it["spans"][0]["byte_start"]
    return notes


def differences(got, want):
    """Lines on what differs in a call."""
    data = got.data
    state = "expanded" if want.rule else "failed"
    if (data["state"], data["rule"]) != (state, want.rule):
        yield f"{data['state']} by rule {data['rule']}, wanted {state} by {want.rule}"
    error = ERRORS.get(want.result, "")
    if not re.fullmatch(error, "\n".join(data["errors"])):
        yield f"errors {data['errors']}, wanted {error}"
    numbers = [it["rule"] for it in data["rules"]]
    if numbers != list(range(1, want.listed + 1)):
        yield f"rules {numbers}, wanted all up to {want.listed}"
    for one, reading in zip(data["rules"], want.readings):
        for name, value in ("states", reading.pattern.expected), ("reached", reading.listed()):
            if one.get(name) != value:
                yield f"rule {one['rule']}: {name} {json.dumps(one.get(name))}"
                yield f"    wanted {json.dumps(value)}"
    page = [page_text(it.listed()) for it in want.readings[:want.listed]]
    if got.page != page:
        yield f"page {got.page}, wanted {page}"


def page_text(reached):
    """The states that a rule reaches, as in a page."""
    return "|".join(" ".join(map(str, states)) for states in reached)


def differing_notes(got, want):
    """Lines on notes that differ."""
    numbers = list(range(1, len(want.notes) + 1))
    if sorted(got.notes) != numbers:
        yield f"notes on rules {sorted(got.notes)}, wanted {numbers}"
        return
    for rule, note in zip(numbers, want.notes):
        message, byte = got.notes[rule]
        listed = re.findall("`[^`]+`|the end of the (?:call|group)", message[len(note.front):])
        listed *= 2 if message.endswith(" in two ways") else 1
        is_one = not note.lists or sorted(listed) in note.lists
        if not message.startswith(note.front) or not is_one:
            yield f"rule {rule}: {message}; wanted {note.front}{note.lists}"
        starts = want.readings[0].argument.starts(got.text, got.first)
        if note.offset is not None and byte != starts[note.offset]:
            yield f"rule {rule}: {message}; at {byte}, wanted {starts[note.offset]}"


def is_equal(case, got, want):
    """Compares a call with what is wanted, and prints how it differs."""
    lines = [*differences(got, want), *differing_notes(got, want)]
    if lines:
        print("\n    ".join([*case.texts(), *lines]), flush=True)
    return not lines


def main():
    parser = common.arguments(__doc__)
    common.add_expandm(parser)
    parser.add_argument("--count", metavar="N", type=int, default=2000, help="calls (%(default)s)")
    parser.add_argument("--seed", metavar="SEED", type=int, default=1, help="(%(default)s)")
    args = parser.parse_args()
    program = common.expandm(args.program)
    maker, passed, results = Maker(args.seed), 0, collections.Counter()
    cases = [maker.case(number) for number in range(args.count)]
    with common.folder() as room:
        for first in range(0, len(cases), BATCH):
            batch = cases[first:first + BATCH]
            for case, got in zip(batch, printed(program, room, batch)):
                want = wanted(case)
                results[want.result] += 1
                passed += is_equal(case, got, want)
    print(", ".join(f"{count} {name}" for name, count in sorted(results.items())))
    return common.finish(passed, len(cases) - passed)


if __name__ == "__main__":
    sys.exit(main())
