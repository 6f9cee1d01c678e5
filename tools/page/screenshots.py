#!/usr/bin/env python3
"""Draws the pictures of pages of `expandm --html` in docs/pictures, in a headless Chromium.

    python3 tools/page/screenshots.py [--program EXPANDM]

page-call.png shows a call that is expanded in its file. page-failure.png shows a call that fails,
with the slider at the token at fault. page-match.png shows a match, and what it bound.
"""
import os
import shutil
import sys
import time

sys.path.insert(0, os.path.dirname(os.path.dirname(os.path.abspath(__file__))))
sys.path.insert(0, os.path.dirname(os.path.abspath(__file__)))
import common  # noqa: E402
from browser import Browser  # noqa: E402
from common import TOP  # noqa: E402

DATA = f"{TOP}/crates/expandm/data"
PICTURES = f"{TOP}/docs/pictures"
WIDTH = 900


def picture(browser, selector, name):
    """Writes the part of the page around an element."""
    box = browser.run(f"(() => {{ const box = document.querySelector('{selector}')"
                      ".getBoundingClientRect(); return [box.x, box.y + scrollY, box.width,"
                      " box.height]; })()")
    x, y, width, height = (round(it) for it in box)
    browser.picture(f"{PICTURES}/{name}.png", clip={
        "x": x - 4, "y": y - 4, "width": width + 8, "height": height + 8, "scale": 1})


def page(program, room, file):
    made = f"{room}/{file}.html"
    common.run([program, "--html", made, f"{DATA}/{file}"], cwd=DATA)
    return made


def main():
    parser = common.arguments(__doc__)
    common.add_expandm(parser)
    args = parser.parse_args()
    if not shutil.which("chromium"):
        sys.exit("no chromium")
    program = common.expandm(args.program)
    with common.folder() as room, Browser() as browser:
        tour = page(program, room, "tour.rs")
        browser.open(tour, width=WIDTH)
        browser.click("#c0 > summary")
        picture(browser, "#c0 > .card", "page-call")
        browser.open(page(program, room, "mistake.rs"), width=WIDTH)
        picture(browser, "#source > .code", "page-failure")
        browser.open(tour, width=WIDTH)
        browser.click("#c0 > summary")
        browser.run("document.querySelector('#c0 > .card .match').open = true")
        while not browser.run("!!document.querySelector('#c0 > .card input')"):
            time.sleep(0.1)
        browser.run("(() => { const slider = document.querySelector('#c0 > .card input');"
                    "slider.value = 6; slider.dispatchEvent(new Event('input')); })()")
        picture(browser, "#c0 > .card .match", "page-match")


if __name__ == "__main__":
    sys.exit(main())
