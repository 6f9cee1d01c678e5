"""Draws pictures as SVG, for tools/docs/pictures: texts, boxes, circles and arrows.

A picture is readable on a light and on a dark screen, and without colours. Its title and its
description are for those who don't see it.
"""
import html

# The width of a character of code, and the height of a line, in units of the picture.
CHAR, LINE = 8.45, 22
STYLE = """
    .paper { fill: #ffffff; }
    text { fill: #1c2024; font: 13px system-ui, "DejaVu Sans", sans-serif; }
    .code { font: 14px ui-monospace, "DejaVu Sans Mono", monospace; white-space: pre; }
    .soft { fill: #5a6370; }
    .box, .call, .added { fill: #f4f6f8; stroke: #8a94a0; }
    .call { fill: #dcebff; stroke: #0b57b0; stroke-width: 1.5; }
    .added { stroke-dasharray: 3 2; }
    .line { fill: none; stroke: #5a6370; }
    .path { fill: none; stroke: #0b57b0; stroke-width: 2; }
    .hollow { fill: #ffffff; stroke: #5a6370; stroke-width: 1.5; }
    .full, .head { fill: #0b57b0; }
    @media (prefers-color-scheme: dark) {
        .paper { fill: #15181c; }
        text { fill: #e3e7eb; }
        .soft { fill: #a3adb8; }
        .box, .added { fill: #1f242a; stroke: #7a8591; }
        .call { fill: #17345a; stroke: #8ab8ff; }
        .line { stroke: #a3adb8; }
        .path { stroke: #8ab8ff; }
        .hollow { fill: #15181c; stroke: #a3adb8; }
        .full, .head { fill: #8ab8ff; }
    }"""


def number(value):
    return f"{value:.1f}".removesuffix(".0")


def width_of(code):
    """The width of a text of code."""
    return len(code) * CHAR


class Picture:
    """A picture, which grows with what is drawn."""

    def __init__(self, title, description):
        self.title, self.description = title, description
        self.parts, self.width, self.height = [], 0, 0

    def grow(self, x, y):
        self.width, self.height = max(self.width, x), max(self.height, y)

    def element(self, name, kind, **attributes):
        found = " ".join(f'{key.replace("_", "-")}="{value if isinstance(value, str) else number(value)}"'
                         for key, value in attributes.items())
        self.parts.append(f'<{name} class="{kind}" {found}/>')

    def text(self, x, y, text, kind="", middle=False):
        """A text whose base line is at `y`. It begins at `x`, or has its middle there."""
        width = width_of(text) if "code" in kind else len(text) * 7.6
        self.grow(x + width * (0.5 if middle else 1), y + 8)
        anchor = ' text-anchor="middle"' if middle else ""
        name = f' class="{kind}"' if kind else ""
        self.parts.append(f'<text{name} x="{number(x)}" y="{number(y)}"{anchor}>'
                          f"{html.escape(text, quote=False)}</text>")

    def box(self, x, y, width, height, kind="box"):
        self.grow(x + width, y + height)
        self.element("rect", kind, x=x, y=y, width=width, height=height, rx=3.0)

    def dot(self, x, y, kind):
        self.grow(x + 6, y + 6)
        self.element("circle", kind, cx=x, cy=y, r=5.0)

    def line(self, points, kind="line", head=False):
        """A line through points, with an arrow head at its end if `head`."""
        for x, y in points:
            self.grow(x, y)
        if head:
            (fx, fy), (x, y) = points[-2:]
            length = ((x - fx) ** 2 + (y - fy) ** 2) ** 0.5
            ux, uy = (x - fx) / length, (y - fy) / length
            points = [*points[:-1], (x - 7 * ux, y - 7 * uy)]
            corners = [(x, y), (x - 9 * ux + 4 * uy, y - 9 * uy - 4 * ux),
                       (x - 9 * ux - 4 * uy, y - 9 * uy + 4 * ux)]
            self.element("polygon", "head", points=points_of(corners))
        self.element("polyline", kind, points=points_of(points))

    def svg(self):
        width, height = number(round(self.width + 16)), number(round(self.height + 12))
        words = [html.escape(it, quote=False) for it in (self.title, self.description)]
        return "\n".join([
            f'<svg xmlns="http://www.w3.org/2000/svg" viewBox="0 0 {width} {height}" width="{width}"'
            f' height="{height}" role="img" aria-labelledby="title description">',
            f'<title id="title">{words[0]}</title>', f'<desc id="description">{words[1]}</desc>',
            f"<style>{STYLE}\n</style>", f'<rect class="paper" width="{width}" height="{height}"/>',
            *self.parts, "</svg>", ""])


def points_of(points):
    return " ".join(f"{number(x)},{number(y)}" for x, y in points)
