#!/usr/bin/env python3
"""Lists what a reader may stumble over, in the documents or in comments.

    tools/docs/english.py [FILE..]      in all documents, or in these
    tools/docs/english.py --comments    in comments of crates/, tools/, tests/, bindings/ and share/

A line of the output is FILE:LINE, what it is, and the quotation:

- a sentence of more than 28 words, a paragraph of more than 6 sentences;
- a sentence that begins with its qualification ("Of the rules, ..");
- a phrase of `PHRASES`, with the better word;
- a line of more than 100 columns, a cell of a table of more than 200 characters;
- a link to a file or a heading that doesn't exist;
- a word that neither `aspell` nor `TERMS` knows. Without `aspell` this isn't checked.

A quotation of `ALLOWED` is allowed. A quotation that no document has is listed, too, so the list is
short. `--comments` only lists: it prints the number of each kind, and the files that have most.
In comments, the quotations of `ALLOWED_IN_COMMENTS` and the words of `WORDS_OF_FILES` are allowed.
"""
import ast
import collections
import functools
import glob
import io
import os
import re
import shutil
import sys
import tokenize
from typing import NamedTuple

sys.path.insert(0, os.path.dirname(os.path.dirname(os.path.abspath(__file__))))
sys.path.insert(0, os.path.dirname(os.path.abspath(__file__)))
import common  # noqa: E402
import markdown  # noqa: E402
from common import TOP  # noqa: E402

WORDS, SENTENCES, COLUMNS, CHARACTERS = 28, 6, 100, 200
# Phrases that have a better word: an expression of `re`, and the better word.
PHRASES = [
    # one word for each concept
    (r"places?|positions?|spots?", "offset, span or state"),
    (r"dots?", "state"),
    (r"beginnings?", "thread, or prefix"),
    (r"idle steps?|over no token", "epsilon step"),
    (r"ways?", "reading"),
    (r"outlines?", "partial reading"),
    (r"clash(es)?", "local ambiguity"),
    (r"names that find|goes? before|went before", "resolve, shadow, precede"),
    (r"stays?|stayed", "unchanged, remains"),
    (r"wants", "expected"),
    (r"iterations?", "round"),
    (r"(what )?(it|they) took", "is bound to"),
    (r"what (calls|a call|it) (becomes?|makes?)", "expansion"),
    (r"saying", "diagnostic"),
    (r"what is said of definitions alone", "lint"),
    (r"words? (of|on|in) (a|the) command line|a word isn't", "argument, option"),
    (r"(has to|have to|must) be believed", "specification, trusted base"),
    (r"wrong bod(y|ies)", "mutant"),
    (r"want of", "allocation failure"),
    (r"names that locals get", "hygiene"),
    # riddles
    (r"is proved to", "proved against a specification"),
    (r"fits? in one way( alone)?|fit for that", "matches unambiguously"),
    (r"no such (call|one) is left", "recursively"),
    (r"that is there|is as it was before|as if it weren't there", "exists; unchanged"),
    (r"isn't right|of no use|is so which|of its own accord|beyond reach|is no law", "say what is wrong"),
    (r"is next in some way|that comes here|comes? here", "expected"),
    (r"says? (yes|no) to|are told|can't be told|as they say", "say who does what"),
    (r"but for|the same of|th(ose|at) of the|an only|with which", "except for; a noun"),
    (r"(it was|they were) made with|words ask for|a note is made of", "say who does what"),
    (r"no other one|takes every argument|by unmatched trees", "say who does what"),
    (r"are dear|nearer|whence", "slow, closer, where"),
    (r"decides the length of|is in that figure|no bytes crash", "input-sized; depends on; no input"),
    (r"go(es)? on here|Expand exceed limit|expected subtree", "stops here; expected"),
]
PHRASE = [(re.compile(rf"\b({phrase})\b", re.I), better) for phrase, better in PHRASES]
# Quotations that are allowed, since the word has another meaning there: a line each.
ALLOWED = """
in place of
In place of
Ops in place.
continues in place
opens in place
in many places
the definition's place
messages, positions, open documents
`trace_values.rt` places
changes of documents, positions
Positions are in UTF-16
if the position is in no call
A place has the index
the places of the path's
the place of the name
A place is
The place of a token
and its position
underlined with dots
one way in which
in two ways
in many ways
in several ways
in ways that no test finds
one of the ways
the ways consume
two ways consume
the second way can
one of two ways
the same way
in each way
"Expand exceed limit"
"expected subtree"
`debug_assertions` stays set
""".strip().split("\n")
# Quotations that are allowed in comments, each with the reason.
ALLOWED_IN_COMMENTS = {
    "in place": "an idiom: a text is changed where it is, without a copy",
    "on the way": "an idiom: between the start and the end of a path or a run",
    "the other way round": "an idiom: with both roles exchanged",
}
# Words that are right in comments of some files: the paths, the words, and what they mean there.
WORDS_OF_FILES = [
    (r"(crates|tests)/(expandm|mbe_lsp)/|crates/(mbe_answers|mbe_cargo|mbe_diagnostics|mbe_page|mbe_protocol|mbe_session|session_tests)/"
     r"|tools/editors/", r"positions?", "a line and a column, as in the types `Position` and `CallPosition` and in the protocol of editors"),
    (r"crates/mbe_grammar/|tools/rust-rules", r"positions?", "the index of a node in the table of rules, whose names are in positions.rt"),
    (r"crates/mbe_session/src/adjustment", r"places?", "what surrounds a call, as in the type `Place`"),
]
# Words that `aspell` doesn't know: terms, and names of programs, crates and units.
TERMS = set("""
    alloc allocator another callee callgrind changelog codegen concat dask eglot enum enums expander
    expr ident indirections inlined inlines inode interner iterator itertools kakoune kb lcov len
    lexed lexer lexes lexing linter linters matcher matchers mbe mbex metavariable metavariables
    neovim nom nullable num proc prover punct puncts recurse rhs rustc savepoints specifier stmt
    struct structs subtree toolchain ttf ty unexpanded valgrind verifier verifiers vis
    whitespace workspace zsh
""".split())
LINK = re.compile(r"\]\(([^)\s]+)\)")


class Fault(NamedTuple):
    """A fault: its line, its kind, and the rest of the message, which ends in a quotation."""

    line: int
    kind: str
    text: str

    def __str__(self):
        return f"{self.kind}{self.text}"


def quoted(text):
    return text if len(text) <= 60 else f"{text[:57]}.."


def squeezed(text):
    return " ".join(text.split())


# ---- prose

def without_code(text):
    """A text with a short word in place of code. Newlines are kept, so lines keep their numbers."""
    return re.sub(r"``.+?``|`[^`]*`", lambda it: "`x`" + "\n" * it[0].count("\n"), text, flags=re.S)


def allowed(text):
    """A text without the quotations that are allowed."""
    for quotation in filter(None, ALLOWED):
        text = text.replace(quotation, " ")
    return text


def sentences_of(paragraph):
    dateless = re.sub(r" \(\d{4}-\d\d-\d\d\)", "", squeezed(without_code(paragraph)))
    return re.split(r"(?<=[.!?:])\s+(?=[A-Z`*])", dateless)


def faults_of_prose(line, paragraph):
    """The faults of one paragraph, which begins at that line."""
    sentences = sentences_of(paragraph)
    for it in sentences:
        if len(it.split()) > WORDS:
            yield Fault(line, "long sentence", f" of {len(it.split())} words: {quoted(it)}")
        if re.match(r"(Of|Where|That) [a-z`][^.]*,", it):
            yield Fault(line, "qualification first", f": {quoted(it)}")
    if len(sentences) > SENTENCES:
        yield Fault(line, "long paragraph", f" of {len(sentences)} sentences: {quoted(squeezed(paragraph))}")
    yield from faults_of_words(line, squeezed(allowed(squeezed(paragraph))))


def faults_of_words(line, text):
    """The phrases of a text that have a better word."""
    text = without_code(text)
    for phrase, better in PHRASE:
        for found in phrase.finditer(text):
            around = text[max(0, found.start() - 25):found.end() + 25].strip()
            yield Fault(line, "phrase", f" '{found[0]}' ({better}): .. {around} ..")


# ---- documents

def blank(text, pattern):
    """A text without the parts that match, whose lines keep their numbers."""
    return re.sub(pattern, lambda it: "\n" * it[0].count("\n"), text, flags=re.M | re.S)


def prose_of(text):
    """A document without code and generated tables."""
    text = blank(text, r"^ *```.*?^ *```")
    return blank(text, r"<!-- tools/.*?<!-- up to here -->")


def paragraphs_of(text):
    """The paragraphs of a document and the items of its lists, each with its line."""
    start, lines = 0, []
    for number, line in enumerate([*text.split("\n"), ""], 1):
        item = re.match(r"\s*(?:[-*>]|\d+\.) ", line)
        is_other = not line.strip() or re.match(r"\||    (?! *(?:- |\S.*[.,;:]$))|#|<!--", line)
        if lines and (is_other or item):
            yield start, "\n".join(lines)
            lines = []
        if not is_other:
            start = start if lines else number
            lines.append(line[item.end():] if item else line)


def cells_of(text):
    """The cells of the tables of a document, each with its line."""
    for number, line in enumerate(text.split("\n"), 1):
        if line.startswith("|") and not line.startswith("|--"):
            yield from ((number, cell.strip()) for cell in re.split(r"(?<!\\)\|", line)[1:-1])


@functools.cache
def anchors_of(path):
    """The anchors of the headings of a page."""
    taken = {}
    lines = blank(common.read(path), r"^```.*?^```")
    return [markdown.anchor_of(re.sub(r"`|\[([^\]]*)\]\([^)]*\)", r"\1", title).strip(), taken)
            for title in re.findall(r"^#{1,3} (.+)$", lines, re.M)]


def lost_links(path, text):
    """The links of a page to files and to headings that don't exist."""
    text = re.sub(r"`[^`\n]*`", "", blank(text, r"^```.*?^```"))
    for found in LINK.finditer(text):
        name, _, anchor = found[1].partition("#")
        target = f"{os.path.dirname(path)}/{name}" if name else path
        if ":" in name:
            continue
        line = text.count("\n", 0, found.start()) + 1
        if not os.path.exists(target):
            yield Fault(line, "no such file", f": {name}")
        elif anchor and anchor not in anchors_of(os.path.normpath(target)):
            yield Fault(line, "no such heading", f": {found[1]}")


def unknown_words(text):
    """The words outside of code that neither `aspell` nor `TERMS` knows."""
    prose = re.sub(r"``.*?``|`[^`]*`|\]\([^)]*\)|<!--.*?-->|^    .*?$", " ", text, flags=re.M | re.S)
    prose = re.sub(r"\S*[/_.:=$]\w\S*|\w*[A-Z]\w*[A-Z]\w*", " ", prose)
    ran = common.run(["aspell", "--lang=en", "--encoding=utf-8", "list"], input=prose)
    if ran.returncode:
        yield Fault(1, "aspell", f": {ran.stderr.strip()}")
    for word in sorted(set(ran.stdout.split())):
        if re.sub("'s$", "", word).lower() not in TERMS:
            at = re.search(rf"\b{re.escape(word)}\b", text)
            yield Fault(text.count("\n", 0, at.start()) + 1 if at else 1, "unknown word", f": {word}")


def faults_of_page(path):
    """The faults of a page, by their lines."""
    whole = common.read(path)
    text = prose_of(whole)
    found = []
    for number, line in enumerate(text.split("\n"), 1):
        if len(line) > COLUMNS and not line.startswith(("|", "    ")):
            found.append(Fault(number, "long line", f" of {len(line)} columns: {quoted(line)}"))
    for number, cell in cells_of(text):
        if len(cell) > CHARACTERS:
            found.append(Fault(number, "long cell", f" of {len(cell)} characters: {quoted(cell)}"))
        found += faults_of_words(number, allowed(cell))
    for number, paragraph in paragraphs_of(text):
        found += faults_of_prose(number, paragraph)
    found += lost_links(path, whole)
    if shutil.which("aspell"):
        found += unknown_words(text)
    return sorted(found)


def pages():
    return [f"{TOP}/tools/README.md", *sorted(glob.glob(f"{TOP}/*.md")), *sorted(glob.glob(f"{TOP}/docs/*.md"))]


def unused_quotations():
    """The quotations of `ALLOWED` that no page has."""
    whole = " ".join(squeezed(common.read(path)) for path in pages())
    return [it for it in ALLOWED if it and it not in whole]


# ---- comments

def comments_of_code(text):
    """The comments of Rattle, each run of lines with its first line. Examples aren't prose."""
    start, lines = 0, []
    for number, line in enumerate([*text.split("\n"), ""], 1):
        found = re.match(r"\s*//[/!]? ?(.*)", line)
        said = found[1] if found else ""
        if lines and (not said.strip() or re.match(r"\s*(?:[-*]|\d+\.) ", said)):
            yield start, "\n".join(lines)
            lines = []
        if said.strip() and not said.startswith(("    ", "|", "```")):
            start = start if lines else number
            lines.append(re.sub(r"^\s*(?:[-*]|\d+\.) ", "", said))


def items_of_table(docstring):
    """A docstring whose rows of a table, each a name, two spaces or more and a text, are items of a list."""
    lines, is_item = [], False
    for line in docstring.split("\n"):
        row = re.match(r"(?:--?)?[\w.-]+ {2,}(?=\S)", line)
        is_item = bool(row) or is_item and line.startswith("    ")
        lines.append(f"- {line[row.end():]}" if row else line.strip() if is_item else line)
    return "\n".join(lines)


def comments_of_script(text):
    """The docstrings and the comments of a script in Python."""
    try:
        tree = ast.parse(text)
    except SyntaxError:
        return
    for node in ast.walk(tree):
        if isinstance(node, (ast.Module, ast.ClassDef, ast.FunctionDef)) and ast.get_docstring(node):
            yield from ((node.body[0].lineno + number - 1, it)
                        for number, it in paragraphs_of(items_of_table(ast.get_docstring(node))))
    runs = []
    for token in tokenize.generate_tokens(io.StringIO(text).readline):
        if token.type == tokenize.COMMENT and not token.string.startswith("#!"):
            said, line = token.string.lstrip("# "), token.start[0]
            if runs and runs[-1][1] == line - 1:
                runs[-1] = (runs[-1][0], line, f"{runs[-1][2]}\n{said}")
            else:
                runs.append((line, line, said))
    yield from ((start, said) for start, _, said in runs)


def comments_of_shell(text):
    """The comments of a script of a shell, each run of lines with its first line."""
    start, lines = 0, []
    for number, line in enumerate([*text.split("\n"), ""], 1):
        said = re.match(r"\s*#(?!!) ?(?!    )(.*\S)", line)
        if said:
            start = start if lines else number
            lines.append(said[1])
        elif lines:
            yield start, "\n".join(lines)
            lines = []


def faults_of_comment(name, line, said):
    """The faults of a comment in the file of that name, without those that are allowed there."""
    for quotation in ALLOWED_IN_COMMENTS:
        said = re.sub(rf"\b{quotation.replace(' ', chr(92) + 's+')}\b", " ", said)
    words = "|".join(words for paths, words, _ in WORDS_OF_FILES if re.match(paths, name))
    for it in faults_of_prose(line, said):
        if not (words and it.kind == "phrase" and re.match(rf" '({words})'", it.text, re.I)):
            yield it


def unused_in_comments(comments):
    """The quotations of `ALLOWED_IN_COMMENTS` that no comment has."""
    whole = squeezed(" ".join(comments))
    return [it for it in ALLOWED_IN_COMMENTS if it not in whole]


def reader_of(path):
    """The function that reads the comments of a file, or None if the file isn't code."""
    if path.endswith(".rt"):
        return comments_of_code
    text = common.read(path)
    if text.startswith("#!/bin/sh"):
        return comments_of_shell
    return comments_of_script if path.endswith(".py") or text.startswith("#!/usr/bin/env python3") else None


def commented_files():
    """The files of code, each with the function that reads its comments."""
    found = sorted(glob.glob(f"{TOP}/crates/**/*.rt", recursive=True))
    for folder in ("tools", "tests", "bindings", "share"):
        for at, folders, names in os.walk(f"{TOP}/{folder}"):
            folders[:] = sorted(it for it in folders if it not in ("out", "target", "__pycache__"))
            found += [f"{at}/{it}" for it in sorted(names) if folder in ("tools", "tests") or it.endswith((".py", ".sh"))]
    yield from ((path, reader) for path in found if (reader := reader_of(path)))


def list_comments():
    """Prints the faults of all comments, how many there are of each kind, and the worst files."""
    kinds, files, longest, whole = collections.Counter(), collections.Counter(), [], []
    for path, comments in commented_files():
        name = os.path.relpath(path, TOP)
        if "/out/" in name:
            continue
        for number, said in comments(common.read(path)):
            whole.append(said)
            for it in faults_of_comment(name, number, said):
                print(f"{name}:{it.line}: {it}")
                kinds[f"{it.kind}, {name.split('/')[0]}"] += 1
                files[name] += 1
                if it.kind == "long sentence":
                    longest.append((int(it.text.split()[1]), f"{name}:{it.line}"))
    print("".join(f"no comment has this quotation of ALLOWED_IN_COMMENTS: {it}\n" for it in unused_in_comments(whole)))
    common.print_table(("Kind", "Number"), sorted(kinds.items()))
    print()
    common.print_table(("File", "Number"), files.most_common(10))
    print()
    common.print_table(("Words", "Longest sentence"), sorted(longest, reverse=True)[:10])


def main():
    parser = common.arguments(__doc__)
    parser.add_argument("--comments", action="store_true", help="check comments instead of documents")
    parser.add_argument("files", metavar="FILE", nargs="*", help="pages; if left out, all")
    arguments = parser.parse_args()
    if arguments.comments:
        return list_comments()
    if not shutil.which("aspell"):
        print("not checked, without aspell: unknown words", file=sys.stderr)
    failed, paths = 0, arguments.files or pages()
    for path in map(os.path.abspath, paths):
        found = faults_of_page(path)
        failed += bool(found)
        print("".join(f"{os.path.relpath(path, TOP)}:{it.line}: {it}\n" for it in found), end="")
    unused = [] if arguments.files else unused_quotations()
    print("".join(f"no page has this quotation of ALLOWED: {it}\n" for it in unused), end="")
    return common.finish(len(paths) - failed, failed + bool(unused))


if __name__ == "__main__":
    sys.exit(main())
