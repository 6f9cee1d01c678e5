"""Makes Rust text smaller, for tools/rustc/programs.py: it leaves out lines, tokens and groups.

The test takes many texts at once, since many programs compile as one crate in little more time
than one.
"""
import re

TOKEN = re.compile(r"""\s*(?:
    //[^\n]*\n? | /\*.*?\*/ | r\#*"(?:[^"\\]|\\.)*"\#* | "(?:[^"\\]|\\.)*" | '(?:\\.[^']*|[^'\\])'
    | '[A-Za-z_]\w* | (?:r\#)?[A-Za-z_]\w* | [0-9][\w]*(?:\.[0-9]\w*)? | \.\.=|\.\.\.|\.\.
    | =>|->|::|<=|>=|==|!=|&&|\|\|
    | [-+*/%^&|]=|<<|>> | \S )""", re.X)
HEAD = re.compile(r"\s*([\w:!.]+)\Z")
PAIRS = {"(": ")", "[": "]", "{": "}"}
CRATE = 40


class Tries:
    """Counts the crates that are judged, and remembers the texts that were tried."""

    def __init__(self, test, count):
        self.test, self.left, self.seen = test, count, {}

    def hold(self, texts):
        """For each text, whether it still differs. Once the count of crates is used up, no text is
        judged."""
        new = list(dict.fromkeys(t for t in texts if t not in self.seen))
        for at in range(0, len(new), CRATE):
            if self.left <= 0:
                break
            self.left -= 1
            part = new[at:at + CRATE]
            self.seen.update(zip(part, self.test(part)))
        return [self.seen.get(t, False) for t in texts]


def tree(text):
    """The tokens of a text as a list. A group in it is a list that begins with its opening."""
    stack = [[]]
    for found in TOKEN.finditer(text):
        token = found.group()
        mark = token.strip()
        if mark in PAIRS:
            stack.append([token])
        elif mark in PAIRS.values() and len(stack) > 1:
            group = stack.pop()
            group.append(token)
            stack[-1].append(group)
        else:
            stack[-1].append(token)
    while len(stack) > 1:
        group = stack.pop()
        stack[-1] += group
    return stack[0]


def flat(part):
    return part if isinstance(part, str) else "".join(flat(p) for p in part)


def size(part):
    return 1 if isinstance(part, str) else sum(size(p) for p in part)


def groups(part, path=()):
    """The paths of all groups, and the groups."""
    yield path, part
    for at, inner in enumerate(part):
        if isinstance(inner, list):
            yield from groups(inner, path + (at,))


def edits(root):
    """All edits. An edit is the path of a group, the start and the end of the parts that it
    replaces, the new parts, and how many tokens go."""
    for path, group in groups(root):
        first, last = (1, len(group) - 1) if path else (0, len(group))
        width = last - first
        while width:
            for at in range(first, last, width):
                end = min(at + width, last)
                yield path, at, end, [], sum(size(p) for p in group[at:end])
            width //= 2
        for at in range(first, last):
            yield from group_edits(path, group, at)
        yield from statements(path, group)


def statements(path, group):
    """Edits that leave out a statement or an element: what is between `;`, `,` and braces."""
    start, last = (1, len(group) - 1) if path else (0, len(group))
    for at in range(start, last):
        part = group[at]
        ends = part.strip() in (";", ",") if isinstance(part, str) else part[0].strip() == "{"
        if ends:
            yield path, start, at + 1, [], sum(size(p) for p in group[start:at + 1])
            start = at + 1


def group_edits(path, group, at):
    """Edits of a group: its parts in place of it or of the call; `1` in place of its parts."""
    inner = group[at]
    if not isinstance(inner, list):
        return
    yield path, at, at + 1, inner[1:-1], 2
    start = at
    while start > 0 and isinstance(group[start - 1], str) and HEAD.match(group[start - 1]):
        start -= 1
    if start < at:
        yield path, start, at + 1, inner[1:-1], 3
        yield path, start, at + 1, [" 1"], size(inner) + 1
    if len(inner) > 3:
        yield path, at, at + 1, [inner[0], " 1 ", inner[-1]], size(inner) - 3
        yield path, at, at + 1, [" 1"], size(inner)


def applied(root, edit):
    """The tree after an edit."""
    path, start, end, instead, _ = edit
    if not path:
        return root[:start] + instead + root[end:]
    inner = applied(root[path[0]], (path[1:], start, end, instead, 0))
    return root[:path[0]] + [inner] + root[path[0] + 1:]


def apart(one, two):
    """Whether two edits change different parts of a tree."""
    short, long = (one, two) if len(one[0]) <= len(two[0]) else (two, one)
    depth = len(short[0])
    if long[0][:depth] != short[0]:
        return True
    if len(long[0]) == depth:
        return long[2] <= short[1] or short[2] <= long[1]
    return not short[1] <= long[0][depth] < short[2]


def all_applied(root, chosen):
    """The tree after edits of different parts. The last edits are applied first."""
    for edit in sorted(chosen, key=lambda e: (e[0] + (e[1],)), reverse=True):
        root = applied(root, edit)
    return root


def best(root, good, tries):
    """The tree after as many of the good edits as hold together."""
    chosen = []
    for edit in sorted(good, key=lambda e: -e[4]):
        if all(apart(edit, other) for other in chosen):
            chosen.append(edit)
    while chosen:
        counts = sorted({len(chosen) * part // 4 for part in (1, 2, 3, 4)} - {0} | {1})
        texts = [flat(all_applied(root, chosen[:n])) for n in counts]
        fits = [n for n, holds in zip(counts, tries.hold(texts)) if holds]
        if fits:
            return all_applied(root, chosen[:max(fits)])
        chosen = chosen[1:]
        if tries.left <= 0:
            break
    return root


def round_of(text, root, found, tries):
    """The text after one round of edits, or None where none of them holds."""
    texts = [flat(applied(root, e)) for e in found]
    keep = [(e, t) for e, t in zip(found, texts) if t not in tries.seen][:CRATE * 2]
    good = [e for (e, _), fits in zip(keep, tries.hold([t for _, t in keep])) if fits]
    if good:
        return flat(best(root, good, tries)), True
    return text, len(keep) == CRATE * 2


def smallest(text, test, count):
    """The smallest text found for which the test holds, in so many crates."""
    tries = Tries(test, count)
    lines = text.splitlines(keepends=True)
    found = [((), at, at + 1, [], 1) for at in range(len(lines))]
    text, _ = round_of(text, lines, found, tries)
    for least in (-1, 16, 4, 1):
        more = True
        while more and tries.left > 0:
            root = tree(text)
            if least < 0:
                found = [edit for path, group in groups(root) for edit in statements(path, group)]
            else:
                found = [e for e in edits(root) if e[4] >= least]
            found.sort(key=lambda e: -e[4])
            text, more = round_of(text, root, found, tries)
    return text
