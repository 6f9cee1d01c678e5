"""Random programs over `macro_rules!`, for tools/rustc/programs.py.

The same seed gives the same programs. `program` writes plain Rust by the forms of forms.py, and
then makes macros of parts of it (trees.py). Or it writes a program of families.py. Each of these is
about one matter, such as scopes.
"""
import random
import re

import families
import forms
from trees import Lift, Node, Rows, Seq, below

SLOT = re.compile(r"~([^~]+)~")
NAMED = re.compile(
    r"(?:impl(?:<X>)?(?: \w+ for)?|macro_rules!|struct|fn|type|trait|const) (\w+)")
NAMES = ["a", "b", "x", "y"]


class Program:
    """A program: its items, and then its `main`. `@@` is the path of its module."""

    def __init__(self, number, edition, items, body):
        self.number, self.edition = number, edition
        self.said = f"{items}\nfn main() {{\n{body}\n}}\n"

    @staticmethod
    def of_text(number, edition, text):
        """The program of a text that `text` returned, or of a part of one."""
        program = Program(number, edition, "", "")
        program.said = re.sub(r"\be\d+_(\d+)\b", rf"e{number}_\1", text)
        return program

    def text(self):
        return self.said

    def module(self):
        """The program as the file of a module, in a crate of many."""
        name = f"c{self.number}"
        inner = "use super::*;\n" + re.sub(r"\bfn main\b", "pub fn run", self.said)
        return inner.replace("@@", f"crate::{name}")

    def alone(self):
        """The program as a crate of its own, with what it uses of the prelude."""
        text = self.said.replace("@@", "crate")
        return "\n".join(needed(text) + [text])


def needed(text):
    """The items of the prelude that the text uses, and those that these use."""
    items, words, kept = forms.PRELUDE.split("\n"), set(re.findall(r"\w+", text)), set()
    size = -1
    while size != len(kept):
        size = len(kept)
        for at, item in enumerate(items):
            name = NAMED.search(item).group(1)
            named = {name, "same"} if name == "X" else {name}
            if at not in kept and named & words:
                kept.add(at)
                words |= set(re.findall(r"\w+", item))
    return [item for at, item in enumerate(items) if at in kept]


class Writer:
    """Writes trees of plain Rust."""

    def __init__(self, rng, number):
        self.rng, self.number, self.count, self.depth, self.budget = rng, number, 0, 0, 60

    def fresh(self):
        self.count += 1
        return self.count

    def form(self, table, rooms):
        """A node by one of the forms. A deep node has a short form."""
        choices = getattr(forms, table)
        self.budget -= 1
        if rooms <= 0 or self.budget < 0:
            slots = 2 if rooms > -6 else 0
            choices = [c for c in choices if c.count("~") <= slots] or choices[:2]
            if rooms <= -4:
                choices = choices[:2]
        return self.rng.choice(choices)

    def node(self, cat, form, rooms):
        low = form.startswith("low ")
        node = Node(cat, [], low=low)
        self.fill(node, form[4:] if low else form, rooms, {})
        return node

    def fill(self, node, form, rooms, names):
        for at, part in enumerate(SLOT.split(form)):
            if at % 2 == 0:
                if part:
                    node.parts.append(part)
            else:
                node.parts.append(self.slot(part, rooms - 1, names))
        return node

    def slot(self, slot, rooms, names):
        tight = slot.endswith("!")
        slot = slot.rstrip("!")
        if slot.startswith("*"):
            return self.rows(slot[1:], rooms, names)
        special = {"n": self.binder, "u": self.user, "x": self.user, "'": self.label,
                   "K": self.const, "F": self.format, "g": self.block, "G": self.block,
                   "S": self.item_name}
        if slot in forms.SLOTS:
            cat, table = forms.SLOTS[slot]
            node = self.node(cat, self.form(table, rooms), rooms)
            self.by_name(node, table)
        elif slot in self.plain():
            node = self.plain()[slot](rooms)
        else:
            node = special[slot[0]](slot, rooms, names)
        node.tight = tight
        if tight and node.text().startswith(("{", "if ", "match ", "loop ", "unsafe ", "'")):
            node.low = self.rng.random() < .9
        return node

    def by_name(self, node, table):
        """Notes which locals a node of one word names."""
        word = node.text()
        if table == "STRUCT" and "P { a" in word:
            node.uses |= {n for n in "ab" if re.search(rf"\{{[^:]*\b{n}\b *[,}}]", node.parts[0])}
        own = " ".join(p for p in node.parts if isinstance(p, str))
        node.uses |= {n for n in ("p", "q", "it", "out") if re.search(rf"(?<!\w){n}\b(?!:)", own)}

    def plain(self):
        metas = forms.META + ["doc = \"d\"", "inline"]
        bounds, ranges = ["Sized", "Copy", "std::fmt::Debug"], ["1..3", "1..", "..2", "..=2"]
        return {"M": lambda r: Node("meta", [self.rng.choice(metas)]),
                "h2": lambda r: Node("path", [self.rng.choice(bounds)]),
                "r2": lambda r: Node("expr", [self.rng.choice(ranges)], low=True),
                "L": lambda r: Node("literal", [f"{self.fresh()}isize"]),
                "id": lambda r: Node("ident", [f"v{self.fresh()}"]),
                "fn": lambda r: Node("ident", [f"g{self.fresh()}"]), "stmts": self.seq}

    def named(self, slot, names, cat):
        """The node of a local. Slots with one number have one name."""
        word = self.rng.choice(NAMES)
        if len(slot) > 1:
            word = names.setdefault(slot[1:], word)
        return word, Node(cat, [word])

    def binder(self, slot, _rooms, names):
        word, node = self.named(slot, names, "ident")
        node.binds = {word}
        return node

    def user(self, slot, _rooms, names):
        word, node = self.named(slot, names, "expr")
        node.uses = {word}
        return node

    def label(self, slot, _rooms, names):
        if slot[1:] not in names:
            names[slot[1:]] = self.rng.choice(["'a", "'k", "'x"])
        return Node("lifetime", [names[slot[1:]]])

    def const(self, slot, _rooms, names):
        if len(slot) == 1:
            return Node("path", [self.rng.choice(["K0", "crate::K0"])])
        return self.item_name(slot, 0, names)

    def item_name(self, slot, _rooms, names):
        if slot not in names:
            names[slot] = {"F": "f", "K": "K", "S": "S"}[slot[0]] + str(self.fresh())
        return Node("ident", [names[slot]])

    def block(self, slot, rooms, _names):
        parts = ["{ ", self.seq(rooms)]
        if slot[0] == "g":
            parts += [" ", self.slot("i", rooms, {})]
        return Node("block", parts + [" }"])

    def seq(self, rooms):
        count = 0 if rooms <= 0 or self.budget < 0 else self.rng.choice([0, 1, 1, 2, 3])
        return Seq("stmts", [self.stmt(rooms - 1) for _ in range(count)])

    def stmt(self, rooms):
        form = self.form("STMT", rooms)
        node = Node("semi", [])
        if form.endswith(";") and form.count(";") == 1 and not form.startswith("#"):
            inner = self.fill(Node("stmt", []), form[:-1], rooms, {})
            node.parts = [inner, ";"]
            return node
        return self.fill(node, form, rooms, {})

    def format(self, slot, rooms, names):
        """The arguments of a format macro, as `"{a} {:>w$}", 1, w = 2`. `F1` is an item's name."""
        if len(slot) > 1:
            return self.item_name(slot, rooms, names)
        uses, said, args, named = set(), [], [], {}
        for _ in range(self.rng.choice([1, 2, 2, 3])):
            self.piece(said, uses, args, named, rooms)
        text = " ".join(said).replace('"', "'")
        kind = self.rng.choice(['"{}"'] * 4 + ['r"{}"', 'r#"{}"#'])
        string = Node("literal", [kind.replace("{}", text)], uses=uses)
        parts = [string]
        for arg in args:
            parts += [", ", arg]
        for name, arg in named.items():
            parts += [f", {name} = ", arg]
        return Node("args", parts + self.rng.choice([[], [], [","]]))

    def piece(self, said, uses, args, named, rooms):
        word = self.rng.choice(NAMES)
        kind = self.rng.randrange(11)
        if kind < 4:
            uses.add(word)
            said.append(self.rng.choice(["{%s}", "{%s:?}", "{%s:>5}", "{%s:#x}", "{%s:+}"]) % word)
        elif kind < 7:
            args.append(self.slot("i", rooms, {}))
            said.append(self.rng.choice(["{}", "{:?}", "{:>4}", "{:<5?}"]))
        elif kind == 7:
            said.append("{wide:>wide$}")
            named["wide"] = Node("expr", ["6usize"])
        elif kind == 8:
            name = self.rng.choice(["n", word])
            named[name] = self.slot("i", rooms, {})
            said.append("{%s}" % name)
        elif kind == 9:
            said.append(self.rng.choice(["{{a}}", "{{}}", "{{{{", "}}"]))
        else:
            args.append(self.slot("i", rooms, {}))
            said.append("{:wide$}")
            named["wide"] = Node("expr", ["5usize"])

    def rows(self, name, rooms, names):
        """A list, all rows of which have one shape."""
        shape, sep = forms.LISTS[name]
        pieces, makers = [], []
        for at, part in enumerate(SLOT.split(shape)):
            if at % 2 == 0 and part:
                pieces.append(part)
            elif at % 2 and part.startswith("+"):
                pieces.append(self.slot(part[1:], rooms, names))
            elif at % 2:
                makers.append(part)
                pieces.append(len(makers) - 1)
        least = 0 if name in ("lets", "adds", "prints", "blocks", "metas", "parms", "fns") else 1
        count = self.rng.choice([least, 1, 2, 2, 3])
        rows = []
        for _ in range(count):
            own = dict(names)
            rows.append([self.slot(m, rooms, own) for m in makers])
        return self.shaped(Rows(pieces, rows, sep), makers, name)

    def shaped(self, rows, makers, name):
        """Notes what the holes of a list hold, for a list without a row."""
        if name == "fields":
            rows.rows = [[Node("ident", [f]), row[1]] for f, row in zip("ab", (rows.rows * 2)[:2])]
            rows.rows[1][1] = self.slot("i", 0, {})
        if name == "fns":
            for row in rows.rows:
                word = row[1].text()
                row[2] = Node("expr", [word], uses={word})
        rows.width = len(makers)
        rows.makers = [self.cat_of(m.rstrip("!")) for m in makers]
        return rows

    def cat_of(self, maker):
        if maker in forms.SLOTS:
            return forms.SLOTS[maker][0]
        cats = {"L": "literal", "M": "meta", "G": "block", "g": "block", "u": "expr"}
        return cats.get(maker.rstrip("12"), "ident")


class Macro:
    """A macro that was made of a part of the program. `place` is `global` or `local`."""

    def __init__(self, name, place, style, matcher, template):
        self.name, self.place, self.style = name, place, style
        self.matcher, self.template = matcher, template
        self.before, self.after, self.braces, self.end = [], [], "{}", ""

    def definition(self):
        body = self.template.text() + self.end
        if self.style == "exported" or self.place == "global":
            body = body.replace("crate::t(", "$crate::t(")
        rule = f"({self.matcher}) => {self.braces[0]}{body}{self.braces[1]}"
        return f"macro_rules! {self.name} {{ {'; '.join(self.before + [rule] + self.after)} }}"

    def text(self):
        """The definition in the program: by itself, in a module, or made by another macro."""
        text = self.definition()
        if self.style == "exported":
            return f"#[macro_export] {text}"
        if self.style == "used":
            return f"{text}\npub(crate) use {self.name};"
        if self.style == "module":
            return f"#[macro_use] mod m{self.name} {{ {text} }}"
        if self.style == "made":
            inner = re.sub(r"\$(?!crate)", "$d ", text)
            return f"macro_rules! mk_{self.name} {{ ($d:tt) => {{ {inner} }} }} mk_{self.name}!($);"
        return text


CHANCE = {"expr": .3, "ty": .5, "pat": .5, "stmt": .4, "block": .4, "item": .4, "meta": .7,
          "path": .6, "vis": .7, "literal": .3, "lifetime": .6, "ident": .35, "args": 0}
DECOYS = {
    "expr": ["(@no) => { 1 }", "(1) => { 7771 }", "(a) => { 7772 }", "(-1) => { 7773 }",
             "(2 ; $($t:tt)*) => { 7774 }", "(=> $i:ident) => { $i }", "($l:lifetime) => { 5 }",
             "(r#a) => { 7775 }", "(()) => { 7776 }"],
    "stmts": ["(@no) => {}", "() => { print!(\"none\"); }", "(1) => { print!(\"one\"); }",
              "(a) => { print!(\"a\"); }"],
}


class Maker:
    """Makes macros of parts of the trees of a program."""

    def __init__(self, rng, number, edition, body, items):
        self.rng, self.number, self.body, self.items = rng, number, body, items
        self.is_old = edition == "2015"
        self.macros, self.count, self.words = [], 0, 0

    def roots(self):
        yield self.body, "local"
        yield self.items, "global"
        for macro in self.macros:
            yield macro.template, macro.place

    def candidates(self):
        """The parts that can become a call, each with whether a local macro is in scope there."""
        for root, place in self.roots():
            for node in below(root):
                if self.fits(node):
                    yield node, place

    def fits(self, node):
        if node.cat not in ("expr", "ty", "pat", "stmts", "items") or node.var:
            return False
        if isinstance(node, Seq):
            return bool(node.parts)
        return len(node.text()) > (12 if node.cat == "expr" else 2)

    def step(self):
        """Makes one macro of a part of the program, and replaces that part by a call."""
        found = list(self.candidates())
        if not found:
            return
        node, place = self.rng.choice(found)
        if place == "local" and self.rng.random() < .55:
            place = "global"
        part, put = self.part_of(node)
        chance = {k: v * self.rng.choice([.4, 1, 1.6]) for k, v in CHANCE.items()}
        lift = Lift(self.rng, self.words, chance, place == "global" or self.rng.random() < .5)
        template = Node("root", [part])
        part.parts = [p if isinstance(p, str) else lift.down(p) for p in part.parts]
        lift.bound |= part.binds
        if isinstance(part, Rows):
            return
        lift.force(template)
        self.words = lift.number
        matcher, given = lift.matcher_and_given()
        macro = self.macro(node.cat, place, matcher, template)
        put(self.call(node.cat, macro, given))

    def part_of(self, node):
        """The part of the node that becomes the template, and a function that replaces this part by the call."""
        if isinstance(node, Seq):
            start = self.rng.randrange(len(node.parts))
            end = self.rng.randint(start + 1, len(node.parts))
            part = Seq(node.cat, node.parts[start:end])

            def put(call):
                node.parts[start:end] = self.around(node.cat, call)
        else:
            part = Node(node.cat, node.parts, uses=node.uses, binds=node.binds)
            part.low = node.low

            def put(call):
                node.parts, node.low, node.uses, node.binds = [call], False, set(), set()
        return part, put

    def around(self, cat, call):
        """The call of statements or items, with attributes, docs, and a disabled copy."""
        said, chance = [call], self.rng.random()
        if chance < .1:
            call.parts.insert(0, self.rng.choice(
                ["#[cfg(on)] ", "#[cfg(all())] ", "#[allow(unused)] ", "/// Said.\n"]))
        elif chance < .16:
            head = self.rng.choice(["#[cfg(any())] ", "#[cfg(off)] ", "#[cfg(windows)] "])
            said.insert(self.rng.randrange(2), Node("semi", [head, call.text()]))
        return said

    def macro(self, cat, place, matcher, template):
        self.count += 1
        style = self.rng.choice(["plain"] * 8 + ["exported", "used", "module", "made"])
        if place == "local":
            style = self.rng.choice(["plain"] * 6 + ["made"])
        style = "plain" if self.is_old and style == "used" else style
        name = f"e{self.number}_{self.count}" if style == "exported" else f"m{self.count}"
        macro = Macro(name, place, style, matcher, template)
        if cat in DECOYS and self.rng.random() < .3:
            self.rng.choice([macro.before, macro.after]).append(self.rng.choice(DECOYS[cat]))
        if self.rng.random() < .15:
            macro.after.append("(@other $($t:tt)*) => {}")
        macro.braces = self.rng.choice(["{}", "{}", "{}", "()", "[]"])
        if cat == "expr" and self.rng.random() < .1:
            macro.end = ";"
        if cat == "expr" and self.rng.random() < .06:
            macro.braces = ("{{ ", " }}")
        self.macros.append(macro)
        return macro

    def call(self, cat, macro, given):
        opening, closing = self.rng.choice(["()", "()", "()", "[]", "{}"])
        path = macro.name
        if macro.style == "exported":
            path = self.rng.choice([macro.name, f"crate::{macro.name}"])
        if macro.style == "used":
            path = self.rng.choice([macro.name, f"@@::{macro.name}"])
        end = ""
        if cat in ("stmts", "items"):
            ends = ["", "", ";"] if cat == "stmts" else [""]
            end = ";" if opening != "{" else self.rng.choice(ends)
            return Node("semi", [f"{path}!{opening}", *given, f"{closing}{end}"])
        return Node("call", [f"{path}!{opening}", *given, closing])


def item_and_use(writer):
    form = writer.rng.choice(forms.ITEM)
    item, use = form.rsplit(" use ", 1)
    names = {}
    several = re.search(r"[;}] (impl|#\[cfg)", item) is not None
    node = writer.fill(Node("several" if several else "item", []), item, 2, names)
    shown = writer.fill(Node("expr", []), use, 1, names)
    return node, Node("semi", ["print!(\"{} \", ", shown, ");"])


def made(rng, number, edition):
    """A program of plain Rust, parts of which became macros."""
    writer = Writer(rng, number)
    rooms = rng.choice([2, 3, 3, 4])
    items, stmts = [], []
    for _ in range(rng.choice([0, 0, 1, 1, 2])):
        item, use = item_and_use(writer)
        items.append(item)
        stmts.append(use)
    for _ in range(rng.choice([1, 2, 2, 3])):
        writer.budget = 30
        stmts.append(writer.stmt(rooms))
    rng.shuffle(stmts)
    body, items = Seq("stmts", stmts), Seq("items", items)
    maker = Maker(rng, number, edition, body, items)
    for _ in range(rng.choice([1, 2, 2, 3, 4, 5])):
        maker.step()
    outer = [m.text() for m in maker.macros if m.place == "global"]
    inner = [m.text() for m in maker.macros if m.place == "local"]
    for texts in (outer, inner):
        if rng.random() < .5:
            texts.reverse()
    shown = 'println!("{} {} {} {} {}", a, b, x, y, out);'
    lines = [forms.BASE, *inner, body.text(), shown]
    return Program(number, edition, "\n".join([*outer, items.text()]), "\n".join(lines))


def program(seed, number, edition):
    """The program of that number."""
    rng = random.Random(f"{seed}/{number}/{edition}")
    if rng.random() < .3:
        items, body = rng.choice(families.ALL)(rng, number)
        return Program(number, edition, items, body)
    return made(rng, number, edition)
