#!/usr/bin/env python3
"""Tries the converter of Markdown on rows of texts, and looks at the whole site.

The script compares the HTML of each row of `CONVERTED` with what tools/docs/markdown.py makes of
its text. It tests that each text of `REFUSED` is an error. Then it writes the site (tools/docs/site)
into an empty folder, and tests of each page:

- The elements are closed in order, no two have one `id`, and headings skip no level.
- Each link leads to a page, a heading or a file of the site, and nothing is loaded from elsewhere.
- It has one `main`, a policy without exceptions, and no script or style in the text.
"""
import importlib.machinery
import importlib.util
import os
import re
import sys
from html.parser import HTMLParser

sys.path.insert(0, os.path.dirname(os.path.dirname(os.path.abspath(__file__))))
sys.path.insert(0, os.path.dirname(os.path.abspath(__file__)))
import common  # noqa: E402
import markdown  # noqa: E402
from common import TOP  # noqa: E402

PRE = '<pre tabindex="0"><code class="language-{}">{}\n</code></pre>'
TABLE = ('<div class="table" role="region" tabindex="0" aria-label="Table: A, B">\n<table>\n<thead>\n'
         '<tr><th scope="col">A</th><th scope="col">B</th></tr>\n</thead>\n<tbody>\n'
         "<tr><td><code>a|b</code></td><td></td></tr>\n</tbody>\n</table>\n</div>")
# Texts with their HTML.
CONVERTED = [
    ("# A `b`", '<h1 id="a-b">A <code>b</code></h1>'),
    ("# A\n\n## B, c\n\n## B, c", '<h1 id="a">A</h1>\n<h2 id="b-c">B, c</h2>\n<h2 id="b-c-1">B, c</h2>'),
    ("one\ntwo\n\nthree", "<p>one\ntwo</p>\n<p>three</p>"),
    ("a < b & c > d", "<p>a &lt; b &amp; c &gt; d</p>"),
    ("`a < b`, `` a`b ``, `c\nd`", "<p><code>a &lt; b</code>, <code>a`b</code>, <code>c d</code></p>"),
    ("**a `*` b** and *c*", "<p><strong>a <code>*</code> b</strong> and <em>c</em></p>"),
    (r"a \* b \`c\` \\", r"<p>a * b `c` \</p>"),
    ("[a `b`](C.md#d), [e]", '<p><a href="C.md#d">a <code>b</code></a>, [e]</p>'),
    ('![a "b"](c.svg)', '<p><img src="c.svg" alt="a &quot;b&quot;"></p>'),
    ("snake_case and $x:expr", "<p>snake_case and $x:expr</p>"),
    ("- a\n  b\n- c", "<ul>\n<li>a\nb</li>\n<li>c</li>\n</ul>"),
    ("- a\n\n- b", "<ul>\n<li><p>a</p></li>\n<li><p>b</p></li>\n</ul>"),
    ("1. a\n2. b", "<ol>\n<li>a</li>\n<li>b</li>\n</ol>"),
    ("3. a", '<ol start="3">\n<li>a</li>\n</ol>'),
    ("- a\n  - b\n- c", "<ul>\n<li>a\n<ul>\n<li>b</li>\n</ul></li>\n<li>c</li>\n</ul>"),
    ("a:\n- b\n\nc", "<p>a:</p>\n<ul>\n<li>b</li>\n</ul>\n<p>c</p>"),
    ("- a\n\n      b", "<ul>\n<li>a\n" + PRE.format("text", "b") + "</li>\n</ul>"),
    ("> a\n> b", "<blockquote>\n<p>a\nb</p>\n</blockquote>"),
    ("```rust\na < b\n\n*c*\n```", PRE.format("rust", "a &lt; b\n\n*c*")),
    ("```\na\n```", PRE.format("text", "a")),
    ("    a\n\n      b\n\nc", PRE.format("text", "a\n\n  b") + "\n<p>c</p>"),
    ("| A | B |\n|---|---|\n| `a\\|b` | |", TABLE),
    ("<!-- a -->\nb", "<p>b</p>"),
]
# Texts that the converter doesn't know.
REFUSED = [
    "#### a", "#a", "# a\n\n# b", "# a\n\n### b", "## a", "a\n===", "---", "* a", "+ a", "1) a", "~~~\na\n~~~",
    "```rust ignore\n```", "```\na", "<b>a</b>", "a <b>c</b>", "a &amp; b", "a ` b", "a *b", "a _b_ c",
    "[a][b]", "[a]: b", "a  \nb", "a\\\nb", "~~a~~", "https://a.b", "- a\nb", "| a |\n| b |",
    "| a | b |\n|---|---|\n| c |", "| a |\n|:--|\n| b |", "| a |\n|---|\n| b",
]
VOID = {"meta", "link", "input", "img", "br"}
POLICY = re.compile(r"(?:[a-z-]+ '(?:none|self)'(?:; |$))+")


def site():
    """The script tools/docs/site as a module."""
    path = f"{os.path.dirname(os.path.abspath(__file__))}/site"
    loader = importlib.machinery.SourceFileLoader("site_of_documents", path)
    module = importlib.util.module_from_spec(importlib.util.spec_from_loader(loader.name, loader))
    loader.exec_module(module)
    return module


class Elements(HTMLParser):
    """The elements of a page, with what is wrong about them."""

    def __init__(self, code):
        super().__init__()
        self.open, self.ids, self.links, self.sources = [], [], [], []
        self.levels, self.names, self.policy, self.faults = [], [], "", []
        self.feed(code)
        self.close()
        if self.open:
            self.faults.append(f"not closed: {self.open}")

    def handle_starttag(self, tag, attrs):
        attributes = dict(attrs)
        self.names.append(tag)
        if tag not in VOID:
            self.open.append(tag)
        if re.fullmatch(r"h[1-6]", tag):
            self.levels.append(int(tag[1]))
        if attributes.get("http-equiv") == "Content-Security-Policy":
            self.policy = attributes["content"]
        self.ids += [attributes["id"]] if "id" in attributes else []
        if tag == "a":
            self.links.append(attributes["href"])
        elif "src" in attributes or tag == "link":
            self.sources.append(attributes.get("src") or attributes["href"])
        if tag == "style" or tag == "script" and "src" not in attributes:
            self.faults.append(f"a {tag} in the text")
        if "style" in attributes or any(it.startswith("on") for it in attributes):
            self.faults.append(f"a style or a script in an attribute of {tag}")

    def handle_endtag(self, tag):
        if not self.open or self.open.pop() != tag:
            self.faults.append(f"</{tag}> closes another element")


def faults_of_page(name, pages, folder):
    """What is wrong about a page of the site."""
    page = pages[name]
    yield from page.faults
    if len(page.ids) != len({*page.ids}):
        yield "two elements of one id"
    if page.levels[:1] != [1] or page.levels.count(1) != 1:
        yield "not one heading of level 1 at the start"
    if any(b > a + 1 for a, b in zip(page.levels, page.levels[1:])):
        yield "a heading skips a level"
    if page.names.count("main") != 1 or not POLICY.fullmatch(page.policy):
        yield "no main, or no policy"
    for target in page.links:
        file, _, anchor = target.partition("#")
        if re.match(r"[a-z]+:|/", target) or (file or name) not in pages:
            yield f"no page {target}"
        elif anchor and anchor not in pages[file or name].ids:
            yield f"no heading {target}"
    for source in page.sources:
        if re.match(r"[a-z]+:|/", source) or not os.path.exists(f"{folder}/{source}"):
            yield f"no file {source}"


def faults_of_site():
    """The number of pages, and what is wrong about them."""
    with common.folder() as room:
        module = site()
        try:
            names = module.write_site(room)
        except (module.Lost, module.markdown.UnknownMarkdown) as it:
            return 1, {"site": [str(it)]}
        pages = {name: Elements(common.read(f"{room}/{name}")) for name in names}
        found = {name: list(faults_of_page(name, pages, room)) for name in pages}
        return len(pages), {name: it for name, it in found.items() if it}


def main():
    common.arguments(__doc__).parse_args()
    failed = 0
    for text, code in CONVERTED:
        try:
            got = markdown.convert(text).html
        except markdown.UnknownMarkdown as it:
            got = f"error: {it}"
        if got != code:
            failed += 1
            print(f"{text!r} is converted to\n{got}\nand not to\n{code}")
    for text in REFUSED:
        try:
            print(f"{text!r} isn't refused: {markdown.convert(text).html}")
            failed += 1
        except markdown.UnknownMarkdown:
            pass
    number, faults = faults_of_site()
    for name, found in faults.items():
        print("".join(f"{name}: {it}\n" for it in found), end="")
    rows = len(CONVERTED) + len(REFUSED) + number
    failed += len(faults)
    return common.finish(rows - failed, failed)


if __name__ == "__main__":
    sys.exit(main())
