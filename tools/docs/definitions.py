#!/usr/bin/env python3
"""Prints the definitions that contracts of `mbe` rest on: the specification that you must trust.

The script starts at the clauses of the functions in crates/mbe/src. It follows each word to its
definition, which is in the crates' specs, or is a type of the code. It doesn't follow words of the
kit's library. Clauses see a type with an `impl Model` as a value. For such a type the script
follows its view and its invariant, and not its fields. It reads words and not types, so it may
list a definition that only shares its name with a variable.

It prints each definition with its file and lines, in reading order: a file comes after the files
that it names. Then it prints the files, with the number of lines of these definitions. Blank
lines and comments don't count.
"""
import os
import re
import sys
from functools import cache

sys.path.insert(0, os.path.dirname(os.path.dirname(os.path.abspath(__file__))))
import common  # noqa: E402
from common import TOP  # noqa: E402

ROOTS = ["macros::expand", "parse_macro_rules", "parse_macro2"]
WORD = re.compile(r"[^\W\d][\w'-]*(?:\.[\w'-]+)*")


@cache
def text_of(file):
    return common.read(f"{TOP}/{file}").split("\n")


def without_comment(line, is_code):
    return re.sub(r"//.*" if is_code else r"--.*", "", line)


def file_of(module):
    """The file of a module `Rattle.CRATE.specs.PATH`, or None; a path below `declared` is a file of the code, with its types."""
    parts = module.split(".")
    if parts[:1] != ["Rattle"] or parts[2:3] != ["specs"] or not os.path.isdir(f"{TOP}/crates/{parts[1]}"):
        return None
    if parts[3:4] == ["declared"]:
        path = parts[4:]
        while path and not os.path.isfile(f"{TOP}/crates/{parts[1]}/src/{'/'.join(path)}.rt"):
            path = path[:-1]
        return f"crates/{parts[1]}/src/{'/'.join(path)}.rt" if path else None
    file = f"crates/{parts[1]}/specs/{'/'.join(parts[3:])}.antt"
    if not os.path.isfile(f"{TOP}/{file}"):
        return None
    return file


def module_passed_on(module):
    """The module that a crate's specs/Lib.antt passes on under this name, or the module itself."""
    parts = module.split(".")
    if len(parts) == 4 and os.path.isfile(f"{TOP}/crates/{parts[1]}/specs/Lib.antt"):
        for line in text_of(f"crates/{parts[1]}/specs/Lib.antt"):
            if line.startswith("pub use ") and line.endswith(f".{parts[3]}"):
                return line.removeprefix("pub use ")
    return module


def imports_of(file, lines):
    """What the `use` lines bring: a name to (file, name), and an alias to a file or, of a type's variants, to that type."""
    names, aliases = {}, {}
    for line in lines:
        named = re.match(r"\s*(?:ghost )?use (Rattle\.[\w.+-]+?)(?:\.\{(.*)\})?(?: as (\w+))?;?\s*$", line)
        if named:
            module = module_passed_on(named[1])
            variants = re.search(r"\.(\w+)\.TheVariants$", module)
            target = file_of(module)
            if not target:
                continue
            for it in (named[2] or "").split(","):
                name, _, other = it.strip().partition(" as ")
                if name:
                    names[other or name] = (target, variants[1] if variants else name)
            if not named[2]:
                aliases[named[3] or module.split(".")[-1]] = (target, variants[1] if variants else None)
        used = re.match(r"(?:pub )?use (\w+)::([\w:]+?)::(?:\{(.*)\}|(\w+));", line)
        if used and file.endswith(".rt"):
            crate = file.split("/")[1] if used[1] == "crate" else used[1]
            target = f"crates/{crate}/src/{used[2].replace('::', '/')}.rt"
            if os.path.isfile(f"{TOP}/{target}"):
                names.update({it.strip(): (target, it.strip()) for it in (used[3] or used[4]).split(",")})
    return names, aliases


@cache
def definitions_of(file):
    """A file's definitions: a name to (first line, last line, the text that is followed); and a constructor to its type."""
    return (code_definitions if file.endswith(".rt") else spec_definitions)(file)


def spec_definitions(file):
    found, owners, name, blocks = {}, {}, None, []
    for n, full in enumerate(text_of(file), 1):
        line = without_comment(full, False)
        if not line.strip() or line.startswith(("use ", "pub use ", "pub mod ")):
            continue
        # a block is `mutual` or `module _ (parameters)`, whose definitions are indented; they may name its parameters' types
        while blocks and not line.startswith(blocks[-1][0]):
            blocks.pop()
        indent = blocks[-1][0] if blocks else ""
        block = re.match(rf"{indent}(?:abbrev )?(mutual|module _ .* where)\s*$", line)
        if block:
            name = None
            blocks.append((indent + "  ", block[1].removeprefix("module _")))
            continue
        said = re.match(rf"{indent}(?:(?:abbrev|unfoldable) )?(?:pub )?(?:(data|record) )?([\w'-]+)(?(1)\b| :(?= |$))", line)
        if said:
            name = said[2]
            found[name] = [n, n, [*(it for _, it in blocks), line]]
            is_data = said[1] == "data"
        elif name:
            found[name][1] = n
            found[name][2].append(line)
            member = re.match(rf"{indent}  (?:pub )?([\w'-]+) : ", line)
            if member and is_data:
                owners[member[1]] = name
    return found, owners


def code_definitions(file):
    found, lines = {}, text_of(file)
    for n, line in enumerate(lines, 1):
        named = re.match(r"pub(?:\(crate\))? (struct|enum|trait|type) (\w+)", line)
        if named:
            end = n if line.rstrip().endswith((";", "{}")) else next(m for m in range(n, len(lines) + 1) if lines[m - 1] == "}")
            kept = [without_comment(it, True) for it in lines[n - 1 : end]]
            model = next((m for m, it in enumerate(lines) if re.match(rf"impl\b.* Model for {named[2]}\b", it)), None)
            if model is not None:
                body = lines[model : lines.index("}", model)]
                kept = without_coding(body)
            found[named[2]] = [n, end, kept]
    return found, {}


def without_coding(body):
    """An `impl Model` without `coded`, which says how the kit stores the value and nothing about it."""
    return re.sub(r"    ghost coded = .*?};\n", "", "\n".join(body) + "\n", flags=re.S).split("\n")


def variables_in(line):
    """The names that a line binds: by `λ x y.`, by `(x y : T)`, and as the patterns of a clause."""
    bound = set()
    for names in re.findall(r"λ ([^.]*)\.(?=\s)", line) + re.findall(r"[({]([\w' -]+) : ", line):
        bound.update(re.findall(r"[\w'-]+", names))
    clause = re.match(r"\s*[\w'-]+ ([^=→:]*) =(?= |$)", line)
    if clause:
        bound.update(WORD.findall(clause[1]))
    return bound


def named_in(file, lines, more=()):
    """The definitions that these lines name, each as (file, name)."""
    names, aliases = imports_of(file, [*text_of(file), *more]) if file.endswith(".antt") else imports_of(file, [*[it for it in text_of(file) if not it.startswith(" ")], *lines, *more])
    own, owners = definitions_of(file)
    found = []
    for line in lines:
        if re.match(r"\s*ghost use |use ", line):
            continue
        bound = variables_in(line)
        for word in WORD.findall(re.sub(r'"[^"]*"', "", line)):
            head, *rest = word.split(".")
            here = own.get(head) or owners.get(head)
            is_type = head in owners or head in names and names[head][1] != head
            if head in aliases:
                target, variants = aliases[head]
                found.append((target, variants or (rest or [""])[0]))
            elif head in bound and not is_type and not constructs(names.get(head)):
                continue
            elif here:
                found.append((file, owners.get(head, head)))
            elif head in names:
                found.append(names[head])
    return [it for it in map(owned, found) if it]


def constructs(named):
    return named and named[1] in definitions_of(named[0])[1]


def owned(named):
    """The definition of a name that may be a constructor; None for what is no definition of the file."""
    file, name = named
    own, owners = definitions_of(file)
    if file.endswith(".rt"):
        # (what the kit makes of a recursive type)
        name = re.sub(r"^(?:out|fold)-|-F$", "", name)
    name = owners.get(name, name)
    if name not in own and file.endswith(".rt"):
        # a module may pass on the types of a private one
        passed_on = imports_of(file, [it for it in text_of(file) if it.startswith("pub use ")])[0].get(name)
        return owned(passed_on) if passed_on else None
    return (file, name) if name in own else None


def clauses_of(file, function):
    """The signature and the clauses of a function, and the imports of the impl around it."""
    lines = text_of(file)
    at = next(n for n, it in enumerate(lines) if re.match(rf"\s*pub fn {function}\b", it))
    end = next(n for n in range(at, len(lines)) if re.fullmatch(r"\s*\{", lines[n]))
    begin = max((n for n in range(at) if lines[n].startswith("impl")), default=0)
    return at + 1, end, lines[at:end], [it for it in lines[begin:at] if "ghost use" in it]


def reached(roots):
    seen, left = {}, []
    for file, function in roots:
        first, last, lines, more = clauses_of(file, function)
        print(f"{function}: {file}:{first}-{last}")
        left += named_in(file, lines, more)
    while left:
        it = left.pop(0)
        if it not in seen:
            seen[it] = named_in(it[0], definitions_of(it[0])[0][it[1]][2])
            left += seen[it]
    return seen


def in_order(seen):
    """The files, each after those that its definitions name."""
    below = {}
    for (file, _), named in seen.items():
        below.setdefault(file, []).extend(it[0] for it in named if it[0] != file)
    order = []

    def visit(file, above):
        if file not in order and file not in above:
            for it in sorted(set(below[file]), key=lambda it: (it.endswith(".antt"), it)):
                visit(it, [*above, file])
            order.append(file)

    for file in sorted(below):
        visit(file, [])
    return order


def commented_from(lines, at):
    """The first of the lines right above a definition that are comments or attributes; a rule between parts of a file is none."""
    while at > 1 and re.match(r"\s*((--|///?) (?!----)|#\[)", lines[at - 2]):
        at -= 1
    return at


def model_of(lines, name):
    """What clauses see of a type, if they don't see its fields."""
    begin = next((n for n, it in enumerate(lines) if re.match(rf"impl\b.* Model for {name}\b", it)), None)
    return [] if begin is None else ["", *without_coding(lines[begin : lines.index("}", begin) + 1])]


def heading_of(file):
    """The first sentence of a file's first comment."""
    said = []
    for line in text_of(file):
        comment = re.match(r"(?:--|//) ?(.*)", line)
        if not comment:
            break
        said.append(comment[1])
    return re.split(r"(?<=[.:])(?: |$)", " ".join(said))[0].rstrip(".:") or os.path.basename(file)


def print_text(files):
    """The definitions as a document: files in reading order, in each what is reached, with the comments above it."""
    for file, here in files:
        lines = text_of(file)
        print(f"\n## {heading_of(file)}\n\n`{file}`\n\n```")
        for number, (first, last, name) in enumerate(here):
            shown = lines[commented_from(lines, first) - 1 : last]
            shown += model_of(lines, name) if file.endswith(".rt") else []
            print(("\n" if number else "") + "\n".join(shown).rstrip())
        print("```")


def main():
    parser = common.arguments(__doc__)
    parser.add_argument("functions", metavar="FUNCTION | MODULE::FUNCTION", nargs="*",
                        help=f"start at these functions; if left out, at {', '.join(ROOTS)}")
    shown = parser.add_mutually_exclusive_group()
    shown.add_argument("--files", action="store_true", help="print the files alone")
    shown.add_argument("--text", action="store_true",
                       help="print the definitions themselves, as one document")
    args = parser.parse_args()
    words = args.functions or ROOTS
    modules = [it.removesuffix(".rt") for it in sorted(os.listdir(f"{TOP}/crates/mbe/src")) if it.endswith(".rt")]
    roots = [
        (f"crates/mbe/src/{module}.rt", name)
        for here, name in (it.split("::") if "::" in it else (None, it) for it in words)
        for module in modules
        if here in (None, module) and any(re.match(rf"\s*pub fn {name}\b", line) for line in text_of(f"crates/mbe/src/{module}.rt"))
    ]
    if len(roots) != len(words):
        sys.exit(f"not every one of {', '.join(words)} is a public function of crates/mbe, once")
    seen = reached(roots)
    rows, files = [], []
    for file in in_order(seen):
        own = definitions_of(file)[0]
        here = sorted(own[name][:2] + [name] for at, name in seen if at == file)
        files.append((file, here))
        lines = sum(1 for a, b, _ in here for it in text_of(file)[a - 1 : b] if without_comment(it, file.endswith(".rt")).strip())
        rows.append((file, len(here), lines))
        if not (args.files or args.text):
            print()
            for a, b, name in here:
                print(f"{file}:{a}-{b} {name}")
    if args.text:
        print_text(files)
    print()
    for file, number, lines in rows:
        print(f"{lines:5} lines, {number:3} definitions: {file}")
    print(f"{sum(it[2] for it in rows):5} lines, {sum(it[1] for it in rows):3} definitions in {len(rows)} files")


if __name__ == "__main__":
    main()
