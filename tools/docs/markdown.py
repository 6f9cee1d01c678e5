"""Converts the Markdown of the documents to HTML, for tools/docs/site.

`convert` knows the Markdown that the documents use:

- headings of three levels, paragraphs, lists with `-` or `1.`, quotes, tables, comments;
- code in fences or indented by four spaces;
- in a line: code, `**strong**`, `*emphasis*`, links, images, and escapes by a backslash.

Anything else raises `UnknownMarkdown` with its line, so no page is converted wrongly in silence.
"""
import html
import re
from typing import NamedTuple

ITEM = re.compile(r"(- |(\d+)\. )")
FENCE = re.compile(r"```(\w*)$")
HEADING = re.compile(r"(#{1,3}) (.+)$")
COMMENT = re.compile(r"<!--.*-->$")
RULE_CELL = re.compile(r"-{3,}$")
# What the documents never use, at the start of a line.
UNKNOWN = [
    (re.compile(r"#{4,}|#\S"), "a heading of another form"),
    (re.compile(r"(=+|-+|\*\*\*+|___+)$"), "a line of signs"),
    (re.compile(r"[*+] "), "a list with another sign than `-`"),
    (re.compile(r"\d+\) "), "a list with another sign than `.`"),
    (re.compile(r"~~~|````"), "a fence of another form"),
    (re.compile(r"```"), "a fence with more than its language"),
    (re.compile(r"\[[^\]]+\]: "), "the target of a link by name"),
    (re.compile(r"<"), "HTML"),
]
# The parts of a line. The first alternative that matches is used.
INLINE = re.compile(
    r"\\(?P<escape>[!-/:-@\[-`{-~])"
    r"|(?P<ticks>`+)(?P<code>(?s:.+?))(?<!`)(?P=ticks)(?!`)"
    r"|!\[(?P<about>[^\]]*)\]\((?P<image>[^()\s]+)\)"
    r"|\[(?P<label>(?:`[^`]*`|[^\[\]`])+)\]\((?P<target>[^()\s]+)\)"
    r"|\*\*(?P<strong>(?:`[^`]*`|[^*`])+)\*\*"
    r"|\*(?P<emphasis>(?:`[^`]*`|[^*`\s])(?:`[^`]*`|[^*`])*)\*")
UNKNOWN_INLINE = re.compile(
    r"`|\*|\]\[|(?<!\w)_\w[^_]*_(?!\w)|<[a-zA-Z/!?]|&#?\w+;|~~|  \n|\\\n|https?://")


class UnknownMarkdown(Exception):
    """Markdown that the converter doesn't know."""


class Heading(NamedTuple):
    """A heading: its level, the name of its anchor, and its text as HTML."""

    level: int
    anchor: str
    html: str


class Section(NamedTuple):
    """What follows a heading, as plain text. The anchor is empty before the first heading."""

    anchor: str
    title: str
    text: str


class Page(NamedTuple):
    """A converted page."""

    title: str
    html: str
    headings: list
    sections: list


def plain(code):
    """The text of a piece of HTML."""
    return " ".join(html.unescape(re.sub(r"<[^>]*>", " ", code)).split())


def anchor_of(title, taken):
    """The anchor of a heading, as on the usual hosts of repositories; no two are equal."""
    name = re.sub(r"[^\w\- ]", "", title.lower()).replace(" ", "-")
    number = taken.get(name, 0)
    taken[name] = number + 1
    return f"{name}-{number}" if number else name


class Converter:
    """Converts one page. `target_of` gives the target of a link, and `mention` links a text."""

    def __init__(self, target_of, mention):
        self.target_of, self.mention = target_of, mention
        self.headings, self.taken = [], {}

    # ---- lines

    def inline(self, text):
        """A text of a paragraph, of a heading or of a cell as HTML."""
        parts, end = [], 0
        for found in INLINE.finditer(text):
            parts.append(self.plain_text(text[end:found.start()]))
            parts.append(self.inline_part(found.groupdict()))
            end = found.end()
        return "".join([*parts, self.plain_text(text[end:])])

    def plain_text(self, text):
        unknown = UNKNOWN_INLINE.search(text)
        if unknown:
            raise UnknownMarkdown(f"`{unknown[0].strip()}` in: {text.strip()[:60]}")
        return self.mention(html.escape(text, quote=False))

    def inline_part(self, part):
        if part["escape"]:
            return html.escape(part["escape"], quote=False)
        if part["code"]:
            code = re.sub(r"\s", " ", part["code"])
            if code.startswith(" ") and code.endswith(" ") and code.strip():
                code = code[1:-1]
            return f"<code>{html.escape(code, quote=False)}</code>"
        if part["image"]:
            target = html.escape(self.target_of(part["image"]))
            return f'<img src="{target}" alt="{html.escape(part["about"])}">'
        if part["target"]:
            target = html.escape(self.target_of(part["target"]))
            return f'<a href="{target}">{self.inline(part["label"])}</a>'
        name = "strong" if part["strong"] else "em"
        return f"<{name}>{self.inline(part['strong'] or part['emphasis'])}</{name}>"

    # ---- blocks

    def blocks(self, lines, is_tight=False):
        """Lines as HTML. The paragraphs of a tight list have no element of their own."""
        found, at = [], 0
        while at < len(lines):
            if not lines[at].strip():
                at += 1
                continue
            code, at = self.block(lines, at, is_tight)
            found.append(code)
        return "\n".join(it for it in found if it)

    def block(self, lines, at, is_tight):
        """The block that begins at a line, and the number of the line after it."""
        line = lines[at]
        if FENCE.match(line):
            return self.fence(lines, at)
        if line.startswith("    "):
            return self.indented(lines, at)
        if HEADING.match(line):
            return self.heading(line), at + 1
        if line.startswith("|"):
            return self.table(lines, at)
        if line.startswith(">"):
            return self.quote(lines, at)
        if ITEM.match(line):
            return self.list(lines, at)
        if COMMENT.match(line):
            return "", at + 1
        return self.paragraph(lines, at, is_tight)

    def fence(self, lines, at):
        language = FENCE.match(lines[at])[1] or "text"
        for end in range(at + 1, len(lines)):
            if lines[end] == "```":
                return code_block(lines[at + 1:end], language), end + 1
        raise UnknownMarkdown("a fence that isn't closed")

    def indented(self, lines, at):
        end = at
        while end < len(lines) and (lines[end].startswith("    ") or not lines[end].strip()):
            end += 1
        code = [line[4:] for line in lines[at:end]]
        while not code[-1].strip():
            code.pop()
        return code_block(code, "text"), end

    def heading(self, line):
        level, title = len(HEADING.match(line)[1]), self.inline(HEADING.match(line)[2])
        last = self.headings[-1].level if self.headings else 0
        if level > last + 1 or level == 1 and self.headings:
            raise UnknownMarkdown(f"a heading of level {level} after level {last}: {line}")
        anchor = anchor_of(plain_title(title), self.taken)
        self.headings.append(Heading(level, anchor, title))
        return f'<h{level} id="{anchor}">{title}</h{level}>'

    def table(self, lines, at):
        end = at
        while end < len(lines) and lines[end].startswith("|"):
            end += 1
        rows = [cells_of(line) for line in lines[at:end]]
        if len(rows) < 2 or not all(map(RULE_CELL.match, rows[1])):
            raise UnknownMarkdown(f"a table without a line of `---`: {lines[at][:60]}")
        for row, line in zip(rows, lines[at:end]):
            if len(row) != len(rows[0]):
                raise UnknownMarkdown(f"a row of {len(row)} cells: {line[:60]}")
        head, body = self.row(rows[0], "th", ' scope="col"'), [self.row(it, "td") for it in rows[2:]]
        name = html.escape(plain(" ".join(f"{self.inline(it)}," for it in rows[0])).rstrip(","))
        return (f'<div class="table" role="region" tabindex="0" aria-label="Table: {name}">\n'
                f"<table>\n<thead>\n{head}\n</thead>\n<tbody>\n" + "\n".join(body) +
                "\n</tbody>\n</table>\n</div>"), end

    def row(self, cells, name, attributes=""):
        found = "".join(f"<{name}{attributes}>{self.inline(it)}</{name}>" for it in cells)
        return f"<tr>{found}</tr>"

    def quote(self, lines, at):
        end = at
        while end < len(lines) and lines[end].startswith(">"):
            end += 1
        inside = [re.sub(r"^> ?", "", line) for line in lines[at:end]]
        return f"<blockquote>\n{self.blocks(inside)}\n</blockquote>", end

    def list(self, lines, at):
        """A list. It is loose if an empty line divides two of its items or their blocks."""
        is_numbered = bool(ITEM.match(lines[at])[2])
        start, items, is_loose = ITEM.match(lines[at])[2], [], False
        while at < len(lines):
            mark = ITEM.match(lines[at])
            if not mark or bool(mark[2]) != is_numbered:
                break
            item, end = item_lines(lines, at, len(mark[0]))
            gap = not lines[end - 1].strip()
            is_loose |= has_gap(item) or gap and end < len(lines) and bool(ITEM.match(lines[end]))
            items.append(item)
            at = end
        inside = "\n".join(f"<li>{self.blocks(it, not is_loose)}</li>" for it in items)
        if is_numbered:
            first = "" if start == "1" else f' start="{start}"'
            return f"<ol{first}>\n{inside}\n</ol>", at
        return f"<ul>\n{inside}\n</ul>", at

    def paragraph(self, lines, at, is_tight):
        for form, what in UNKNOWN:
            if form.match(lines[at]):
                raise UnknownMarkdown(f"{what}: {lines[at][:60]}")
        end = at + 1
        while end < len(lines) and not ends_paragraph(lines[end]):
            end += 1
        text = "\n".join(line.lstrip() for line in lines[at:end])
        code = self.inline(text)
        return (code if is_tight else f"<p>{code}</p>"), end


def plain_title(code):
    """The text of a title. Its code and links are part of its words."""
    return html.unescape(re.sub(r"<[^>]*>", "", code))


def code_block(lines, language):
    text = html.escape("\n".join(lines), quote=False)
    return f'<pre tabindex="0"><code class="language-{language}">{text}\n</code></pre>'


def cells_of(line):
    """The cells of a row of a table. A `|` in a cell follows a backslash."""
    if not line.endswith("|"):
        raise UnknownMarkdown(f"a row of a table without a `|` at its end: {line[:60]}")
    return [it.strip().replace("\\|", "|") for it in re.split(r"(?<!\\)\|", line)[1:-1]]


def item_lines(lines, at, width):
    """The lines of the item of a list that begins at a line, and the number of the line after it.

    Every line of an item is indented as far as its text.
    """
    found, end = [lines[at][width:]], at + 1
    while end < len(lines) and (lines[end].startswith(" " * width) or not lines[end].strip()):
        found.append(lines[end][width:])
        end += 1
    is_end = end == len(lines) or not lines[end - 1].strip() or ITEM.match(lines[end])
    if not is_end and not ends_paragraph(lines[end]):
        raise UnknownMarkdown(f"a line of a list without its indentation: {lines[end][:60]}")
    while not found[-1].strip():
        found.pop()
    return found, end


def has_gap(item):
    """Whether an empty line divides the blocks of an item, outside of code."""
    is_code = False
    for line, following in zip(item, [*item[1:], ""]):
        is_code ^= line.startswith("```")
        if not line.strip() and not is_code and not following.startswith("    "):
            return True
    return False


def ends_paragraph(line):
    return (not line.strip() or line.startswith(("|", ">", "#", "<", "```", "~~~"))
            or re.match(r"(- |1\. |[*+] |=+$|-+$)", line))


def sections_of(code, headings):
    """The sections of a page, for the search."""
    parts = re.split(r'<h[1-3] id="([^"]*)">.*?</h[1-3]>', code)
    titles = {it.anchor: plain_title(it.html) for it in headings}
    return [Section(anchor, titles[anchor], plain(text))
            for anchor, text in zip(parts[1::2], parts[2::2])]


def convert(text, target_of=lambda it: it, mention=lambda it: it):
    """Converts a page. `target_of` maps the target of a link, `mention` the HTML of plain text."""
    converter = Converter(target_of, mention)
    code = converter.blocks(text.split("\n"))
    title = plain_title(converter.headings[0].html) if converter.headings else ""
    return Page(title, code, converter.headings, sections_of(code, converter.headings))
