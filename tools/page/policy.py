#!/usr/bin/env python3
"""Writes the style sheet and the script of `mbe_markup` from style.css and script.js of this folder.

The constants are in crates/mbe_markup/src/style.rt and script.rt, with the policy of the page, which
names both by their SHA-256. With --check the script writes nothing, and prints each file that
differs.
"""
import base64
import hashlib
import os
import sys

HERE = os.path.dirname(os.path.abspath(__file__))
sys.path.insert(0, os.path.dirname(HERE))
import common  # noqa: E402

SOURCES = f"{common.TOP}/crates/mbe_markup/src"

STYLE = """// The style sheet of the page, and its Content-Security-Policy. `tools/page/policy.py` writes
// both.

/// The policy allows this style sheet and the script of `script`, by their SHA-256, and nothing
/// else.
pub const POLICY: &str = "default-src 'none'; \\
style-src 'sha256-{style}'; \\
script-src 'sha256-{script}'; \\
base-uri 'none'; form-action 'none'";

/// The style sheet. It has colours for light and dark, and a form for print.
pub const STYLE: &str = "{text}";
"""

SCRIPT = """// The script of the page. `tools/page/policy.py` writes it.

/// The script marks the tokens that have the origin of the token under the mouse or the keyboard's
/// cursor, and opens and closes calls. The page can be read without it.
pub const SCRIPT: &str = "{text}";
"""


def digest(text):
    return base64.b64encode(hashlib.sha256(text.encode()).digest()).decode()


def constant(text):
    """A text as a constant in the source."""
    return text.replace("\\", "\\\\").replace('"', '\\"')


def files():
    style, script = common.read(f"{HERE}/style.css"), common.read(f"{HERE}/script.js")
    for text in (style, script):
        if "</" in text or "<!--" in text:
            sys.exit("a style sheet or a script can't have `</` or `<!--` in a page")
    return {
        "style.rt": STYLE.replace("{style}", digest(style)).replace("{script}", digest(script))
        .replace("{text}", constant(style)),
        "script.rt": SCRIPT.replace("{text}", constant(script)),
    }


def main():
    parser = common.arguments(__doc__)
    parser.add_argument("--check", action="store_true")
    is_check = parser.parse_args().check
    wrong = 0
    for name, text in files().items():
        path = f"{SOURCES}/{name}"
        if is_check and common.read(path) != text:
            print(f"{name} isn't as tools/page/policy.py writes it")
            wrong += 1
        elif not is_check:
            common.write(path, text)
    return common.finish(len(files()) - wrong, wrong)


if __name__ == "__main__":
    sys.exit(main())
