#!/usr/bin/env python3
"""Writes pages by `expandm --html`, and drives them in a headless Chromium.

    python3 tools/page/pages.py [--program EXPANDM] [--pictures FOLDER] [FILE.rs ..]
    python3 tools/page/pages.py [--program EXPANDM] --sizes FILE.rs | FOLDER ..

The pages are of the tour, of a macro that takes its argument in 200 steps, of a text that looks
like markup, and of the given files. The script checks these on each page:

- it has at most 2 MB, `tidy` finds nothing wrong in it, and no script or policy reports an error;
- each token of an expansion has the origin that `--origin` reports;
- texts have the contrast that WCAG AA asks for, in light and in dark;
- without scripts it shows the text of the file, and a call opens by a key.

In the tour it also checks these:

- a click expands a call;
- a token under the mouse marks its origin;
- the arrow keys go from token to token;
- a failing call is open where it fails;
- its slider begins there, goes from token to token by the arrow keys, and says what a rule expects.

--pictures keeps pictures of the pages. A file needn't be Rust.

--sizes checks the size and the HTML of each page alone, without Chromium, and lists the sizes. A
page that isn't written within a minute fails.
"""
import html.parser
import os
import shutil
import subprocess
import sys

sys.path.insert(0, os.path.dirname(os.path.dirname(os.path.abspath(__file__))))
sys.path.insert(0, os.path.dirname(os.path.abspath(__file__)))
import common  # noqa: E402
from browser import Browser  # noqa: E402
from common import TOP  # noqa: E402

LIMIT = 2_000_000

MUNCHER = (
    '#![recursion_limit = "512"]\n'
    "macro_rules! sum { () => { 0 }; ($x:tt $($rest:tt)*) => { $x + sum!($($rest)*) } }\n"
    f"const SUM: u32 = sum!({'1 ' * 200});\n"
)

HOSTILE = (
    "macro_rules! m { ($x:tt) => { f($x, \"</script><script>hacked = 1</script>\") } }\n"
    "// <img src=x onerror='hacked = 1'>\n"
    "fn g() { m!(\"</div></details><svg onload=hacked=1>\"); m!(1 2); }\n"
)

# The contrast of each element with a text of its own, where it is less than WCAG AA asks for.
CONTRAST = """(() => {
    const numbers = (text) => text.match(/[0-9.]+/g).map(Number);
    const light = (color) => {
        const [r, g, b] = color.map((one) => {
            const part = one / 255;
            return part <= 0.03928 ? part / 12.92 : Math.pow((part + 0.055) / 1.055, 2.4);
        });
        return 0.2126 * r + 0.7152 * g + 0.0722 * b;
    };
    const behind = (element) => {
        for (let one = element; one; one = one.parentElement) {
            const color = numbers(getComputedStyle(one).backgroundColor);
            if (color.length < 4 || color[3] === 1) { return color.slice(0, 3); }
        }
        return matchMedia('(prefers-color-scheme: dark)').matches ? [0, 0, 0] : [255, 255, 255];
    };
    const found = {};
    document.querySelectorAll('details').forEach((one) => { one.open = true; });
    document.querySelectorAll('body *').forEach((one) => {
        const own = Array.from(one.childNodes).some((it) => it.nodeType === 3 && it.data.trim());
        if (!own || one.closest('script, style') || !one.getClientRects().length) { return; }
        const isText = one.namespaceURI.endsWith('svg');
        const box = isText ? one.parentElement.querySelector('rect') : null;
        const style = getComputedStyle(one);
        const fore = light(numbers(isText ? style.fill : style.color).slice(0, 3));
        const back = light(box ? numbers(getComputedStyle(box).fill).slice(0, 3) : behind(one));
        const ratio = (Math.max(fore, back) + 0.05) / (Math.min(fore, back) + 0.05);
        if (ratio < 4.5) {
            const name = one.className.baseVal || one.className;
            found[`${one.tagName}.${name}`] = ratio;
        }
    });
    return found;
})()"""

# The source as the page shows it, without line numbers and cards.
SOURCE = """(() => {
    const copy = document.querySelector('#source .code').cloneNode(true);
    copy.querySelectorAll('.n, .card').forEach((one) => one.remove());
    return copy.textContent;
})()"""


class Cards(html.parser.HTMLParser):
    """Reads the tokens of the expansion of each step: their texts and origins."""

    def __init__(self):
        super().__init__()
        self.path, self.steps, self.token = [], {}, None

    def handle_starttag(self, tag, attrs):
        one = dict(attrs)
        if tag == "meta":
            return
        self.path.append((tag, one.get("class", ""), one.get("id", ""), one.get("aria-label", "")))
        if tag == "i":
            self.token = ["", one.get("data-o")]

    def handle_startendtag(self, tag, attrs):
        """An element without content has no tokens."""

    def handle_data(self, data):
        if self.token:
            self.token[0] += data

    def handle_endtag(self, tag):
        if tag == "i" and self.token:
            self.keep(self.token)
            self.token = None
        self.path.pop()

    def keep(self, token):
        """Adds a token to the step whose expansion it is in."""
        codes = [number for number, it in enumerate(self.path) if "code" in it[1].split()]
        if not codes or self.path[codes[-1]][3] != "Expansion":
            return
        at = codes[-1]
        inside = [it[2] for it in self.path[:at] if it[0] == "details" and "call" in it[1].split()]
        self.steps.setdefault(int(inside[-1][1:]), []).append(tuple(token))


def without_attributes(tokens, shown):
    """The tokens without `#[doc =` and `]`. The page has a doc comment for these."""
    found, at = [], 0
    for text, _ in shown:
        if text == "a comment":
            at += 5 if tokens[at + 1:at + 2] and tokens[at + 1][0] == "!" else 4
            found += [(text, place) for _, place in tokens[at:at + 1]]
        else:
            found += tokens[at:at + 1]
        at += 1
    return found + tokens[at:]


class Run:
    """The checks on pages, and how many passed."""

    def __init__(self, program, browser, room, pictures):
        self.program, self.browser, self.room, self.pictures = program, browser, room, pictures
        self.passed = self.failed = 0

    def check(self, name, got, want):
        if got == want:
            self.passed += 1
            return
        self.failed += 1
        print(f"{name}: {str(got)[:1500]}\n    wanted {str(want)[:1500]}", flush=True)

    def page(self, path):
        """Writes the page of a file."""
        made = f"{self.room}/{os.path.basename(path)}.html"
        common.run([self.program, "--html", made, path])
        return made

    def check_html(self, name, made):
        """Checks the size and the HTML of a page. `tidy` doesn't read a page that is too large."""
        is_small = os.path.getsize(made) <= LIMIT
        self.check(f"{name}: size", is_small, True)
        if is_small:
            tidy = common.run(["tidy", "-errors", "-quiet", "--show-warnings", "yes", made])
            self.check(f"{name}: tidy", tidy.stderr, "")

    def check_page(self, path):
        """Checks what holds for each page."""
        made = self.page(path)
        name = os.path.basename(path)
        self.check_html(name, made)
        self.check(f"{name}: origins", *self.origins(path, made))
        for scheme in ("light", "dark"):
            self.browser.open(made, color_scheme=scheme)
            self.check(f"{name}: contrast in {scheme}", self.browser.run(CONTRAST), {})
            self.check(f"{name}: errors in {scheme}", self.browser.errors(), [])
        self.browser.scripts(False)
        self.browser.open(made)
        self.browser.scripts(True)
        text = common.read(path).replace("\r\n", "\n")
        self.check(f"{name}: text", self.browser.run(SOURCE).rstrip("\n"), text.rstrip("\n"))
        self.check(f"{name}: hacked", self.browser.run("typeof hacked"), "undefined")
        if self.pictures:
            self.browser.open(made)
            self.browser.picture(f"{self.pictures}/{name}.png", whole=True)
            self.browser.run("document.querySelectorAll('details').forEach((it) => it.open = true)")
            self.browser.picture(f"{self.pictures}/{name}.open.png", whole=True)

    def origins(self, path, made):
        """The tokens of the page's expansions with their origins, and those of `--origin`."""
        reader = Cards()
        reader.feed(common.read(made))
        ran = common.run([self.program, "--trace", "--origin", "--json", path])
        wanted = []
        for it in common.reports(ran.stderr):
            if it["message"].startswith("to `"):
                wanted.append([])
            elif "` in the expansion of `" in it["message"]:
                text = it["message"][1:].rsplit("` in the expansion", 1)[0]
                # A page writes `crate` for `$crate`, as the expansion does.
                wanted[-1].append(("crate" if text == "$crate" else text,
                                   it["spans"][0]["byte_start"] if it["spans"] else 0))
        steps = [reader.steps[number] for number in sorted(reader.steps)]
        closings = (")", "]", "}")
        got = [[(text if text[:2] not in ("//", "/*") else "a comment",
                 int(origin.split(".")[-1]) if origin else None) for text, origin in step
                if text not in closings] for step in steps]
        # A token that the expander added has no origin on the page.
        wanted = [it for it in wanted if it]
        wanted = [without_attributes(*it) for it in zip(wanted, got)] + wanted[len(got):]
        fitting = []
        for one, other in zip(got, wanted):
            places = [at for _, at in other] if len(one) == len(other) else [None] * len(one)
            fitting.append([(text, at if have is None else have)
                            for (text, have), at in zip(one, places)])
        return fitting + got[len(fitting):], wanted

    def check_tour(self, made):
        """What a person does with the page of a file with a call that fails."""
        browser = self.browser
        browser.open(made)
        is_open = "document.querySelector('#c0').open"
        self.check("a call is closed", browser.run(is_open), False)
        browser.click("#c0 > summary")
        self.check("a click opens it", browser.run(is_open), True)
        browser.run("document.querySelector('#c0 > summary').focus()")
        browser.press("Enter", 13, "\r")
        self.check("a key closes it", browser.run(is_open), False)
        browser.press("Enter", 13, "\r")
        browser.hover("#c0 .code[aria-label=Expansion] i[data-o]")
        marks = browser.run("document.querySelectorAll('#source > .code > .hot, "
                            "#source summary .hot, #source .hot').length")
        self.check("a token under the mouse marks its origin", marks > 1, True)
        self.check("its origin is named", " from " in browser.run(
            "document.querySelector('#status').textContent"), True)
        browser.run("document.querySelector('#c0 .code[aria-label=Expansion]').focus()")
        browser.press("ArrowRight", 39)
        browser.press("ArrowRight", 39)
        at = browser.run("(() => { const code = document.activeElement;"
                         "const all = Array.from(code.querySelectorAll('i[data-o]'));"
                         "return all.indexOf(code.querySelector('.cur')); })()")
        self.check("arrow keys go from token to token", at, 1)
        browser.run("document.querySelector('#tools button').click()")
        self.check("a button opens all calls", browser.run(
            "document.querySelectorAll('details.call:not([open])').length"), 0)

    def check_slider(self, made):
        """The slider of the call `pairs!(width: 2, height 3)`, which fails at the `3`."""
        browser = self.browser
        browser.open(made)
        said = ("[document.querySelector('details.bad .argument .at').textContent, "
                "document.querySelector('details.bad .expects').textContent, "
                "Array.from(document.querySelectorAll('details.bad .live'))"
                ".map((it) => it.textContent).join(' ')]")
        self.check("a slider begins where a rule stops", browser.run(said),
                   ["3", "Expects \u201C:\u201D.", ":"])
        browser.run("document.querySelector('details.bad input').focus()")
        browser.press("ArrowLeft", 37)
        self.check("a key moves a slider to a token", browser.run(said),
                   ["height", "Expects \u201C$key:ident\u201D.", "$key:ident"])
        browser.press("ArrowLeft", 37)
        self.check("after a round", browser.run(said),
                   [",", "Expects \u201C,\u201D or the end.", ","])


def check_sizes(program, paths):
    """Checks the pages of files without a browser, and lists their sizes, the largest first."""
    sizes = []
    with common.folder() as room:
        run = Run(program, None, room, None)
        for path in common.rust_files(paths):
            made = f"{room}/page.html"
            try:
                common.run([program, "--html", made, path], timeout=60)
            except subprocess.TimeoutExpired:
                run.check(f"{path}: a page within a minute", False, True)
                continue
            run.check_html(path, made)
            sizes.append((os.path.getsize(made), path))
    common.print_table(("Bytes", "File"), sorted(sizes, reverse=True))
    return common.finish(run.passed, run.failed)


def main():
    parser = common.arguments(__doc__)
    common.add_expandm(parser)
    parser.add_argument("--pictures", metavar="FOLDER", help="keep pictures of the pages here")
    parser.add_argument("--sizes", action="store_true", help="check sizes and HTML, and list sizes")
    parser.add_argument("files", metavar="FILE.rs", nargs="*")
    args = parser.parse_args()
    for needed in ("tidy",) if args.sizes else ("chromium", "tidy"):
        if not shutil.which(needed):
            sys.exit(f"no {needed}")
    if args.sizes:
        return check_sizes(common.expandm(args.program), args.files)
    if args.pictures:
        os.makedirs(args.pictures, exist_ok=True)
    with common.folder() as room, Browser() as browser:
        run = Run(common.expandm(args.program), browser, room, args.pictures)
        tour = f"{TOP}/crates/expandm/data/tour.rs"
        common.write(f"{room}/muncher.rs", MUNCHER)
        common.write(f"{room}/hostile.rs", HOSTILE)
        mistake = f"{TOP}/crates/expandm/data/mistake.rs"
        for path in (tour, mistake, f"{room}/muncher.rs", f"{room}/hostile.rs", *args.files):
            run.check_page(path)
        run.check_tour(run.page(tour))
        browser.open(run.page(mistake))
        run.check("a failing call is open", browser.run(
            "document.querySelector('details.bad').open && "
            "document.querySelector('details.bad mark').textContent"), "3 rule 1 stops here")
        run.check_slider(run.page(mistake))
        return common.finish(run.passed, run.failed)


if __name__ == "__main__":
    sys.exit(main())
