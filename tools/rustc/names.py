#!/usr/bin/env python3
"""Judges by random crates which macro each call finds. From any folder:

    python3 tools/rustc/names.py --seed 1 --count 500 --program EXPANDM --out /tmp/found

Each definition of a crate expands to a number of its own, so the expansion of a call tells which
macro it found. The crates have these:

- nested modules, some in files;
- macros of equal names, `macro` items, and definitions in expansions;
- `use` with renames, groups, globs and re-exports;
- `#[macro_use]` and `#[macro_export]`;
- other crates.

The script removes what rustc refuses. Then it compares rustc's expansion of each call in the crate
with the expansion in the text of `expandm`. The same seed gives the same crates.

| Class | Meaning |
|---|---|
| same | `expandm` expands the call to the number of rustc |
| refused | `expandm` leaves the call, and reports something at it |
| left | `expandm` leaves the call, and reports nothing |
| noted | after `expandm` the call is another number, and `expandm` reports something at it |
| other | after `expandm` the call is another number, and `expandm` reports nothing at it |

A crate fails if a call of it is in the class `other`, or if rustc refuses it after `expandm`. The
script makes such a crate smaller, prints it, and writes it into the folder of `--out`. The script
gives `expandm` no package, so it knows a crate by its name alone.
"""
import collections
import concurrent.futures
import json
import os
import random
import re
import sys

sys.path.insert(0, os.path.dirname(os.path.dirname(os.path.abspath(__file__))))
import common  # noqa: E402

CLASSES = ["same", "refused", "left", "noted", "other"]
NAMES = ["m", "n", "k"]
STANDARD = ["concat", "stringify"]
MODULES = ["a", "b", "c"]
PATH_STARTS = ["self::", "crate::", "super::", ""]
# Macros that define others: of each its name, and its template.
MADE = "macro_rules! $n { () => { $e } }"
MAKERS = {
    "make": MADE,
    "make_use": f"{MADE} pub(crate) use $n;",
    "make_export": f"#[macro_export] {MADE}",
    "make_mod": f"#[macro_use] mod made {{ {MADE} }}",
    "make_item": "pub macro $n() { $e }",
}
PRINT = "pub fn out<T: std::fmt::Display>(id: u32, x: T) { println!(\"{} {}\", id, x) }"


# ---- crates as trees of lines

class Node:
    """A line of a crate, or a group of lines: its first line, what is inside, and its last line.

    `file` is the path of the file that the inside is in, if it has one.
    """

    def __init__(self, head, inside=None, file=None):
        self.head, self.inside, self.file = head, inside, file

    def without(self, dropped):
        """A copy without these nodes."""
        if self.inside is None:
            return self
        kept = [it.without(dropped) for it in self.inside if it not in dropped]
        copy = Node(self.head, kept, self.file)
        return copy

    def below(self):
        """All nodes inside, the larger ones first."""
        for it in self.inside or []:
            yield it
        for it in self.inside or []:
            yield from it.below()


def lay_out(node, path, files, places, depth=0):
    """Adds the lines of the nodes inside a node to `files`, and each of these nodes to `places`, by its file and line."""
    lines = files.setdefault(path, [])
    for it in node.inside:
        lines.append("    " * depth + it.head)
        places[path, len(lines)] = it
        if it.file:
            lay_out(it, it.file, files, places)
        elif it.inside is not None:
            lay_out(it, path, files, places, depth + 1)
            lines.append("    " * depth + "}")
            places[path, len(lines)] = it


class Crate:
    """A crate: its edition, and by name the trees of its root and of other crates."""

    def __init__(self, edition, trees):
        self.edition, self.trees = edition, trees

    def without(self, dropped):
        return Crate(self.edition, {k: it.without(dropped) for k, it in self.trees.items()})

    def nodes(self):
        return [it for tree in self.trees.values() for it in tree.below()]

    def files(self):
        """The text of each file by its path, and the node of each line."""
        files, places = {}, {}
        for name, tree in self.trees.items():
            lay_out(tree, f"{name}.rs", files, places)
        return {path: "\n".join(lines) + "\n" for path, lines in files.items()}, places

    def write(self, folder):
        files, places = self.files()
        for path, text in files.items():
            common.write(f"{folder}/{path}", text)
        return places


# ---- the generator

class Writer:
    """Writes a random crate."""

    def __init__(self, seed):
        self.random = random.Random(seed)
        self.number = 0
        self.has_items = self.chance(0.3)
        self.has_files = self.chance(0.2)
        self.has_makers = self.chance(0.3)
        self.names = NAMES[:self.one(1, 1, 2, 2, 3)]
        if self.chance(0.15):
            self.names = [*self.names, self.random.choice(STANDARD)]
        self.paths = ["a", "b", "a::b", "b::a", "c"]
        self.crates = []

    def chance(self, part):
        return self.random.random() < part

    def one(self, *of):
        return self.random.choice(of)

    def next(self):
        self.number += 1
        return self.number

    def name(self):
        return self.random.choice(self.names)

    def crate(self):
        edition = self.random.choice(["2015", "2018", "2021", "2021", "2024"])
        trees = {}
        if self.chance(0.3):
            for name in ["d", "e"][:self.one(1, 2)]:
                trees[name] = Node("", self.other_crate())
                self.crates.append(name)
        inside = [Node("#![feature(decl_macro)]"), Node(PRINT)]
        inside += [Node(self.extern_crate(it)) for it in self.crates
                   if edition == "2015" or self.chance(0.3)]
        inside += [Node(f"macro_rules! {name} {{ ($n:ident, $e:expr) => {{ {made} }} }}")
                   for name, made in MAKERS.items() if self.has_makers]
        inside += [it for _ in range(self.one(0, 1, 2)) for it in self.definition()]
        inside += self.items([], 0) + [Node("fn main() {", self.statements(0))]
        trees["main"] = Node("", inside)
        return Crate(edition, trees)

    def extern_crate(self, name):
        kind = self.random.random()
        if kind < 0.2:
            self.crates.append("q")
            return f"extern crate {name} as q;"
        return f"{'#[macro_use] ' if kind < 0.5 else ''}extern crate {name};"

    def other_crate(self):
        """The items of another crate."""
        found = [Node("#![feature(decl_macro)]")]
        for _ in range(self.one(1, 2, 3)):
            found.append(Node(f"#[macro_export] {self.rules(self.name())}"))
            if self.crates and self.chance(0.5):
                found.append(Node(f"pub use {self.crates[-1]}::{self.one(self.name(), '*')};"))
            if self.chance(0.3):
                inside = f"pub use crate::{self.renamed()};"
                found.append(Node(f"pub mod {self.one(*MODULES)} {{ {inside} }}"))
            if self.has_items and self.chance(0.3):
                found.append(Node(f"pub macro {self.name()}() {{ {self.next()} }}"))
        return found

    def rules(self, name):
        """A definition by `macro_rules!`."""
        return f"macro_rules! {name} {{ () => {{ {self.template()} }} }}"

    def template(self):
        """What a macro expands to: a number, or rarely a call."""
        if self.chance(0.88):
            return self.next()
        path = self.one("", "", "", "$crate::", "crate::", "self::", "super::", "crate::a::")
        return f"{path}{self.name()}!()"

    def renamed(self):
        """A name of a `use`, sometimes with another name after it."""
        return f"{self.name()} as {self.name()}" if self.chance(0.3) else self.name()

    def path(self):
        """A path up to its last `::`."""
        if self.crates and self.chance(0.3):
            return self.one("", "", "::") + self.one(*self.crates) + "::"
        if self.chance(0.1):
            return "super::super::"
        start = self.one(*PATH_STARTS)
        return start + (f"{self.random.choice(self.paths)}::" if self.chance(0.7) else "")

    def use(self):
        visibility = self.one("", "pub(crate) ", "pub(crate) ", "pub ")
        kind = self.random.random()
        if kind < 0.55:
            return Node(f"{visibility}use {self.path()}{self.renamed()};")
        if kind < 0.7:
            return Node(f"{visibility}use {self.path()}{{{self.renamed()}, {self.renamed()}}};")
        if kind < 0.78:
            renamed = f"{self.one(*MODULES)} as {self.one(*MODULES)}"
            return Node(f"{visibility}use {self.path()}{renamed};")
        return Node(f"{visibility}use {self.path()}*;")

    def module(self, path, depth):
        name = self.one(*MODULES, *MODULES, *self.crates)
        here = [*path, name]
        if len(here) == depth + 1:
            self.paths.append("::".join(here))
        before = "#[macro_use] " if self.chance(0.4) else ""
        before += self.one("", "", "", "#[allow(dead_code)] ")
        inside = self.items(here, depth + 1)
        if self.has_files and len(here) == depth + 1 and self.chance(0.5):
            return Node(f"{before}pub mod {name};", inside, f"{'/'.join(here)}.rs")
        return Node(f"{before}pub mod {name} {{", inside)

    def item(self, path, depth):
        """One item, or a few."""
        kind = self.random.random()
        if kind < 0.28:
            return self.definition()
        if kind < 0.5 and depth < 3:
            return [self.module(path, depth)]
        if kind < 0.62:
            return [self.use()]
        if kind < 0.7 and self.has_items:
            visibility = self.one("", "pub ", "pub(crate) ")
            return [Node(f"{visibility}macro {self.name()}() {{ {self.template()} }}")]
        if kind < 0.78 and self.has_makers:
            maker = self.one("make", *MAKERS)
            return [Node(f"{maker}!({self.name()}, {self.next()});")]
        if kind < 0.85:
            return [Node(f"pub const C{self.next()}: u32 = {self.call()};")]
        return [Node(f"pub fn f{self.next()}() {{", self.statements(depth + 1))]

    def definition(self):
        name = self.name()
        kind = self.random.random()
        if kind < 0.15:
            return [Node(f"#[macro_export] {self.rules(name)}")]
        found = [Node(self.rules(name))]
        if kind < 0.5:
            found.append(Node(f"pub(crate) use {name};"))
        elif kind < 0.6:
            found.append(Node(f"pub(crate) use {name} as {self.name()};"))
        return found

    def items(self, path, depth):
        count = self.random.randint(2, 6 if depth == 0 else 4)
        return [it for _ in range(count) for it in self.item(path, depth)]

    def call(self):
        path = self.path() if self.chance(0.35) else ""
        return f"{path}{'r#' if self.chance(0.03) else ''}{self.name()}!()"

    def statements(self, depth):
        found = []
        for _ in range(self.random.randint(2, 6)):
            kind = self.random.random()
            if kind < 0.6:
                found.append(Node(f"crate::out({self.next()}, {self.call()});"))
            elif kind < 0.75:
                found.append(Node(self.rules(self.name())))
            elif kind < 0.85 and depth < 4:
                found.append(Node("{", self.statements(depth + 1)))
            elif kind < 0.95:
                found.append(self.use())
            elif depth < 3:
                found.append(self.module(["in", "a", "function"], depth + 1))
        return found


# ---- rustc

def rustc(crate, folder, name):
    """Expands a crate by rustc. Its other crates are compiled before. Returns the run."""
    others = [it for it in crate.trees if it != "main"]
    words = ["--cap-lints", "allow", "--error-format=json", "--crate-name", name, "-L", folder]
    words += [it for other in others[:others.index(name) if name in others else None]
              for it in ("--extern", f"{other}={folder}/lib{other}.rmeta")]
    if name == "main":
        words.append("-Zunpretty=expanded")
    else:
        words += ["--crate-type", "lib", "--emit", "metadata", "--out-dir", folder]
    return common.rustc(*words, f"{folder}/{name}.rs", edition=crate.edition, env=common.NIGHTLY)


def refused(said, folder, places):
    """The nodes that rustc's errors are at: of each error the outermost call."""
    found = []
    for line in said.splitlines():
        if not line.startswith("{"):
            continue
        error = json.loads(line)
        for span in error["spans"] if error["level"] == "error" else []:
            while span["expansion"]:
                span = span["expansion"]["span"]
            at = os.path.relpath(span["file_name"], folder), span["line_start"]
            if span["is_primary"] and at in places or at in places and not found:
                found.append(places[at])
    return found


def accepted(crate, folder):
    """The crate without what rustc refuses, and rustc's expansion of it; or None."""
    for _ in range(30):
        places = crate.write(folder)
        for name in crate.trees:
            ran = rustc(crate, folder, name)
            if ran.returncode:
                break
        else:
            return crate, ran.stdout
        dropped = refused(ran.stderr, folder, places)
        if not dropped:
            return None
        crate = crate.without(dropped)
    return None


CALL = re.compile(r"out\((\d+), *(.*)\);$|const C(\d+): u32 = *(.*);$", re.M)


def numbers(text):
    """What each call in a text is expanded to, by the number of the call."""
    found = {}
    for it in CALL.finditer(text):
        found[int(it[1] or it[3])] = (it[2] or it[4] or "").strip("( )")
    return found


# ---- expandm

def expanded(program, crate, folder, to):
    """Expands a crate by `expandm`. Returns the lines that it reports something at."""
    words = [program, "--json", "--edition", crate.edition, "--write", to]
    words += [it for other in crate.trees if other != "main"
              for it in ("--extern", f"{other}={folder}/{other}.rs")]
    os.makedirs(to, exist_ok=True)
    ran = common.run([*words, f"{folder}/main.rs"])
    lines = {(os.path.relpath(it["file_name"], folder), it["line_start"])
             for report in common.reports(ran.stderr) for it in report["spans"]}
    if ran.returncode not in (0, 1):
        raise RuntimeError(f"expandm has status {ran.returncode}: {ran.stderr[-300:]}")
    return lines


class Result:
    """What became of a crate: the class of each call, and why the crate fails, if it does."""

    def __init__(self, classes, failure=None, call=None):
        self.classes, self.failure, self.call = classes, failure, call


def is_noted(files, lines, at, left):
    """Whether something is reported at a line, or where a template has the call that is left."""
    if at in lines:
        return True
    texts = (files[path].split("\n")[line - 1] for path, line in lines if path in files)
    return any(left in text for text in texts)


def compare(crate, wanted, program, folder):
    """Compares rustc's expansions of a crate's calls with those of `expandm`."""
    files, _ = crate.files()
    to = f"{folder}/expanded"
    lines = expanded(program, crate, folder, to)
    texts, at = {}, {}
    for path, text in files.items():
        if os.path.exists(f"{to}/{path}"):
            texts.update(numbers(common.read(f"{to}/{path}")))
        else:
            common.write(f"{to}/{path}", text)
        for number, line in enumerate(text.split("\n"), 1):
            at.update((it, (path, number)) for it in numbers(line))
    ran = rustc_after(crate, folder, to)
    if ran.returncode:
        return Result({}, f"rustc refuses the expanded crate: {first_error(ran.stderr)}", "rustc")
    got, classes = numbers(ran.stdout), {}
    for call, want in numbers(wanted).items():
        left, now = texts.get(call, ""), got.get(call)
        noted = is_noted(files, lines, at.get(call), left if "!" in left else "\0")
        if now != want:
            classes[call] = "noted" if noted else "other"
        else:
            classes[call] = "same" if "!" not in left else "refused" if noted else "left"
        if classes[call] == "other":
            return Result(classes, f"call {call}: rustc {want}, expandm {now}", call)
    return Result(classes)


def rustc_after(crate, folder, to):
    """Expands the expanded crate by rustc, with the other crates as they were."""
    for other in crate.trees:
        if other != "main":
            os.replace(f"{folder}/lib{other}.rmeta", f"{to}/lib{other}.rmeta")
    return rustc(crate, to, "main")


def first_error(said):
    return next((json.loads(it)["message"] for it in said.splitlines() if it.startswith("{")), said)


# ---- smaller crates

def smaller(crate, call, program):
    """A smaller crate that still fails at that call."""
    is_smaller = True
    while is_smaller:
        is_smaller = False
        for node in crate.nodes():
            less = crate.without([node])
            result = judged(less, program, True)
            if result and result.failure and result.call == call:
                crate, is_smaller = less, True
                break
    return crate


def judged(crate, program, is_exact=False):
    """The result of a crate, or None if rustc refuses it: if `is_exact`, any line of it."""
    with common.folder() as folder:
        found = accepted(crate, folder) if not is_exact else exact(crate, folder)
        if not found:
            return None
        crate, wanted = found
        result = compare(crate, wanted, program, folder)
        result.crate = crate
        return result


def exact(crate, folder):
    crate.write(folder)
    for name in crate.trees:
        ran = rustc(crate, folder, name)
        if ran.returncode:
            return None
    return crate, ran.stdout


def tried(seed, program, is_minimised):
    """The result of the crate of a seed."""
    result = judged(Writer(seed).crate(), program)
    if result and result.failure and is_minimised:
        least = smaller(result.crate, result.call, program)
        again = judged(least, program, True)
        result.crate, result.failure = least, again.failure
    return seed, result


def text_of(crate):
    files, _ = crate.files()
    order = sorted(files, key=lambda it: it == "main.rs")
    return "".join(f"// {path}\n{files[path]}" for path in order)


def main():
    parser = common.arguments(__doc__)
    common.add_expandm(parser)
    parser.add_argument("--seed", type=int, default=1, help="the first seed (%(default)s)")
    parser.add_argument("--count", type=int, default=500, help="how many crates (%(default)s)")
    parser.add_argument("--jobs", type=int, default=2, help="crates at a time (%(default)s)")
    parser.add_argument("--out", metavar="FOLDER", help="write the crates that fail into FOLDER")
    parser.add_argument("--whole", action="store_true", help="don't make failing crates smaller")
    args = parser.parse_args()
    program = common.expandm(args.program)
    classes, counts = collections.Counter(), collections.Counter()
    with concurrent.futures.ThreadPoolExecutor(args.jobs) as pool:
        seeds = range(args.seed, args.seed + args.count)
        for seed, result in pool.map(lambda it: tried(it, program, not args.whole), seeds):
            if not result:
                counts["thrown away"] += 1
                continue
            classes.update(result.classes.values())
            counts["failed" if result.failure else "passed"] += 1
            if result.failure:
                crate = result.crate
                head = f"// seed {seed}, edition {crate.edition}: {result.failure}\n"
                text = head + text_of(crate)
                print(text, flush=True)
                if args.out:
                    common.write(f"{args.out}/{seed}.rs", text)
    common.print_table(["Class", "Calls"], [(it, classes[it]) for it in CLASSES])
    print(f"{counts['thrown away']} crates thrown away")
    return common.finish(counts["passed"], counts["failed"])


if __name__ == "__main__":
    sys.exit(main())
