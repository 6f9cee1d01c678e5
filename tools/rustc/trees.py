"""Trees of Rust text, parts of which become macros. tools/rustc/programs.py uses this module.

A program begins as trees of plain Rust. `Lift` takes a part of a tree, such as `a + 1`. It makes a
`macro_rules!` of that part, with some of its parts as fragments: `($e:expr) => { $e + 1 }`. The
call `m!(a)` replaces the part. The template is a tree again, so another macro can be made of it.
"""
import re

IDENT = re.compile(r"(?:r#)?[A-Za-z_][A-Za-z0-9_]*\Z")
NUMBER = re.compile(r"-?[0-9][0-9_a-z.]*\Z")
STRING = re.compile(r'b?"(?:[^"\\]|\\.)*"\Z', re.S)
PATH = re.compile(r"(?:\$?[A-Za-z_]\w*)(?:::\w+)*\Z")
KEYWORDS = {"true", "false", "self", "if", "match", "return", "break", "loop", "_", "unsafe",
            "const"}


class Node:
    """A part of a program: strings and nodes. A `low` text needs parentheses as an operand, and a
    `tight` node is an operand. `uses` and `binds` are the locals that the node itself names."""

    def __init__(self, cat, parts, low=False, uses=(), binds=(), var=None):
        self.cat, self.parts, self.low, self.var = cat, list(parts), low, var
        self.uses, self.binds, self.tight = set(uses), set(binds), False

    def text(self):
        inner = "".join(p if isinstance(p, str) else p.text() for p in self.parts)
        return f"({inner})" if self.tight and self.low else inner

    def nodes(self):
        return [p for p in self.parts if not isinstance(p, str)]


class Seq(Node):
    """Statements or items, one after another."""

    def text(self):
        return "\n".join(p if isinstance(p, str) else p.text() for p in self.parts)


class Rows(Node):
    """A list of rows of one shape: strings, numbers of holes, and nodes that all rows share.
    In a template it is a repetition: it has one row, and `rep` is its operator."""

    def __init__(self, shape, rows, sep, rep=None, trail=""):
        super().__init__("rows", [])
        self.shape, self.rows, self.sep, self.rep, self.trail = shape, rows, sep, rep, trail
        self.width, self.makers = 0, []

    def row(self, holes):
        said = (p if isinstance(p, str) else (holes[p] if isinstance(p, int) else p).text()
                for p in self.shape)
        return "".join(said)

    def text(self):
        if self.rep:
            sep = "" if self.rep == "?" else self.sep.strip()
            return f"$({self.row(self.rows[0])}){sep}{self.rep}"
        return self.sep.join(self.row(row) for row in self.rows) + self.trail

    def nodes(self):
        shared = [p for p in self.shape if isinstance(p, Node)]
        return [n for row in self.rows for n in row] + shared


def below(node):
    """Yields the node and all nodes in it."""
    yield node
    for part in node.nodes():
        yield from below(part)


def is_one_group(text, opening):
    """Whether the text is one group with that opening."""
    if not text or text[0] != opening or "'" in text or '"' in text:
        return False
    depth = 0
    for at, char in enumerate(text):
        depth += (char in "([{") - (char in ")]}")
        if depth == 0:
            return at == len(text) - 1
    return False


FORWARDS = {
    "expr": ["expr", "expr", "expr", "expr_2021", "tt"], "expr_2021": ["expr", "tt"],
    "ident": ["ident", "tt"], "literal": ["literal", "tt"], "ty": ["ty", "ty", "tt"],
    "path": ["path", "ty", "tt"], "pat": ["pat", "tt"], "pat_param": ["pat_param", "pat", "tt"],
    "block": ["block", "tt"], "stmt": ["stmt", "tt"], "item": ["item", "tt"],
    "meta": ["meta", "tt"], "vis": ["vis"], "lifetime": ["lifetime", "tt"], "tt": ["tt"],
}
KINDS = {
    "expr": ["expr"] * 4 + ["expr_2021"], "ty": ["ty"] * 3, "pat": ["pat", "pat", "pat_param"],
    "stmt": ["stmt"],
    "block": ["block"], "item": ["item"], "meta": ["meta"], "path": ["path"], "vis": ["vis"],
    "literal": ["literal"], "lifetime": ["lifetime", "lifetime", "tt"],
    "ident": ["ident", "ident", "tt"],
}


def kinds_of(node):
    """The fragment kinds that take the node."""
    text = Node.text(node) if not node.tight else "".join(
        p if isinstance(p, str) else p.text() for p in node.parts)
    if node.var:
        is_expr = node.cat == "expr" and node.var in ("ident", "literal", "block", "tt")
        more = ["expr"] if is_expr else []
        return FORWARDS[node.var] + more
    kinds = list(KINDS[node.cat])
    is_word = IDENT.match(text) and text not in KEYWORDS
    if node.cat in ("expr", "ty", "pat", "path") and is_word:
        kinds += ["ident", "ident", "tt"]
    if node.cat in ("expr", "ty") and PATH.match(text) and text not in KEYWORDS:
        kinds += ["path"]
    if NUMBER.match(text) or STRING.match(text) or text in ("true", "false"):
        kinds += ["literal", "literal"] + (["tt"] if text[0] != "-" else [])
        kinds += ["expr"] if node.cat != "pat" else []
    if node.cat == "expr" and is_one_group(text, "{"):
        kinds += ["block", "block", "tt"]
    if any(is_one_group(text, opening) for opening in "(["):
        kinds += ["tt"]
    return kinds


AFTER = {
    "expr": [", ", ", ", "; ", " => "], "ty": [", ", ", ", "; ", " => ", " = ", " : ", " | "],
    "pat": [", ", ", ", " => ", " = ", " if ", " in "], "vis": [", ", " x "],
}
AFTER.update({"expr_2021": AFTER["expr"], "stmt": AFTER["expr"], "path": AFTER["ty"],
              "pat_param": AFTER["pat"] + [" | "]})
AFTER_ANY = [", ", ", ", "; ", " ", " -> ", " : ", " and "]


class Hole:
    """A part of an argument: its text in the pattern, what the call has there, and the kind of the fragment."""

    def __init__(self, matcher, given, kind):
        self.matcher, self.given, self.kind = matcher, given, kind


class Lift:
    """One step: a node becomes a macro. `holes` are what it takes."""

    def __init__(self, rng, number, chance, is_global):
        self.rng, self.number, self.chance, self.is_global = rng, number, chance, is_global
        self.holes, self.words, self.bound = [], {}, set()

    def name(self, node):
        self.number += 1
        return f"{self.rng.choice('efghk') if self.rng.random() < .8 else 'a'}{self.number}"

    def take(self, node, kind=None):
        """Makes the node an argument, and returns the variable that replaces it."""
        if node.var == "tts" or (kind is None and node.cat in ("expr", "ty", "pat") and not node.var
                                 and self.rng.random() < .05):
            return self.take_tokens(node)
        kind = kind or self.rng.choice(kinds_of(node))
        if node.var is None and self.rng.random() < .85 and kind != "tt":
            node.tight = False
        name = self.name(node)
        var = Node(node.cat, [f"${name}"], var=kind)
        self.holes.append(Hole(f"${name}:{kind}", node, kind))
        if len(node.uses | node.binds) == 1 and kind == "ident":
            self.words[next(iter(node.uses | node.binds))] = name
        return var

    def take_tokens(self, node):
        name = self.name(node)
        opening, closing = self.rng.choice(["[]", "()", "{}"])
        given = Node("tokens", [opening, node, closing])
        self.holes.append(Hole(f"{opening}$(${name}:tt)*{closing}", given, "tt"))
        var = Node(node.cat, [f"$(${name})*"], low=node.low, var="tts")
        var.tight, node.tight = node.tight, False
        return var

    def down(self, node):
        """What the template has in place of the node."""
        if isinstance(node, Rows):
            return self.rows(node)
        fits = node.cat in KINDS
        if node.uses and node.nodes() and self.is_global and fits:
            return self.take(node)
        if node.var or (fits and self.rng.random() < self.chance.get(node.cat, .2)):
            return self.take(node)
        node.parts = [p if isinstance(p, str) else self.down(p) for p in node.parts]
        self.bound |= node.binds
        return node

    def rows(self, node):
        node.shape = [self.down(p) if isinstance(p, Node) else p for p in node.shape]
        if node.rep or self.rng.random() < .7:
            hole, used = self.repeated(node)
            self.holes.append(hole)
            return used
        node.rows = [[self.down(n) for n in row] for row in node.rows]
        return node

    def repeated(self, node):
        """The hole of a repetition of the rows, and the repetition in the template."""
        count = len(node.rows[0]) if node.rows else node.width
        matchers, shape, used, kinds = [], [], [], []
        for at in range(count):
            column = [row[at] for row in node.rows]
            matcher, var, kind = self.column(column, node.makers[at])
            if kinds:
                sep = self.rng.choice(AFTER.get(kinds[-1], AFTER_ANY))
                matchers.append(sep)
                shape.append(sep)
            matchers.append(matcher)
            shape += matcher_shape(matcher, at)
            kinds.append(kind)
            used.append(var)
        after = AFTER.get(kinds[-1], [", ", "; ", " - ", " => "])
        sep = self.rng.choice([s for s in after if s.strip()])
        rep = self.operator(node, used)
        given = Rows(shape, node.rows, sep, node.rep)
        end = ""
        if node.rep is None and rep != "?" and self.rng.random() < .25:
            end = f" $({sep.strip()})?"
            given.trail = self.rng.choice(["", sep.strip()]) if node.rows else ""
        mark = "" if rep == "?" else sep.strip()
        hole = Hole(f"$({''.join(matchers)}){mark}{rep}{end}", given, "rows" + kinds[-1])
        inner = Rows(node.shape, [used], node.sep, rep)
        inner.width, inner.makers = count, node.makers
        given.width, given.makers = count, node.makers
        return hole, inner

    def operator(self, node, used):
        if node.rep:
            return node.rep
        if len(node.rows) <= 1 and not node.sep.strip() and self.rng.random() < .3:
            return "?"
        return "+" if node.rows and self.rng.random() < .3 else "*"

    def column(self, column, maker):
        """The matcher of one hole of all rows, and its variable."""
        if column and isinstance(column[0], Rows):
            return self.inner_rows(column)
        common = None
        for node in column:
            if node.var == "tts":
                node.low = True
            kinds = ["tt"] if node.var == "tts" else kinds_of(node)
            common = kinds if common is None else [k for k in common if k in kinds]
        cat = column[0].cat if column else maker
        kind = self.rng.choice(common or KINDS[cat])
        if kind != "tt":
            for node in column:
                node.tight = node.tight and self.rng.random() < .15
        name = self.name(None)
        return f"${name}:{kind}", Node(cat, [f"${name}"], var=kind), kind

    def inner_rows(self, column):
        """The matcher, the node and the kind of holes that are lists themselves. All of them have one shape."""
        first = column[0]
        every = [row for rows in column for row in rows.rows]
        joined = Rows(first.shape, every, first.sep, first.rep)
        joined.width, joined.makers = first.width, first.makers
        hole, used = self.repeated(joined)
        used.width, used.makers = first.width, first.makers
        for rows in column:
            rows.shape, rows.sep, rows.trail = hole.given.shape, hole.given.sep, hole.given.trail
        return f"[{hole.matcher}]", used, "tt"

    def force(self, node):
        """Takes what the template can't name: locals that it doesn't bind."""
        for at, part in enumerate(node.parts):
            if isinstance(part, str) or part.var:
                continue
            free = part.uses - self.bound
            is_whole = not any(n.var for n in below(part))
            if free and self.is_global and part.cat in KINDS and is_whole:
                node.parts[at] = self.forced(part)
            else:
                self.force(part)
        if isinstance(node, Rows):
            holder = Node("tokens", node.nodes())
            self.force(holder)
            self.put_back(node, holder.parts)

    def put_back(self, node, parts):
        width = len(node.rows[0]) if node.rows else 0
        flat = parts[:width * len(node.rows)]
        node.rows = [flat[k * width:(k + 1) * width] for k in range(len(node.rows))]
        rest = iter(parts[len(flat):])
        node.shape = [next(rest) if isinstance(p, Node) else p for p in node.shape]

    def forced(self, part):
        word = next(iter(part.uses)) if len(part.uses) == 1 else None
        if word in self.words and self.rng.random() < .8 and part.text() == word:
            return Node(part.cat, [f"${self.words[word]}"], var="ident")
        return self.take(part)

    def matcher_and_given(self):
        """The matcher of the rule, and the nodes of the call."""
        holes = self.holes
        if self.rng.random() < .15:
            self.rng.shuffle(holes)
        matcher, given = "", []
        if self.rng.random() < .1:
            mark = self.rng.choice(["@go ", "=> ", "a ", "+ ", "1 ", "let ", "'k "])
            matcher, given = mark, [mark]
        for at, hole in enumerate(holes):
            matcher += hole.matcher
            given.append(hole.given)
            if at + 1 < len(holes):
                kind = hole.kind
                after = [", ", "; "] if kind.startswith("rows") else AFTER.get(kind, AFTER_ANY)
                sep = self.rng.choice(after)
                if kind.startswith("rows"):
                    sep = {"; ": " ; "}.get(sep, sep)
                    matcher, given[-1] = f"{matcher[:-len(hole.matcher)]}[{hole.matcher}]", \
                        Node("tokens", ["[", hole.given, "]"])
                matcher += sep
                given.append(sep)
        return matcher, given


def matcher_shape(matcher, at):
    """How a row of the call writes the hole: a list stands in brackets."""
    return ["[", at, "]"] if matcher.startswith("[$(") else [at]
