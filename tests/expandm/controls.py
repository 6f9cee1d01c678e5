"""Control characters of a file in reports: a sign replaces each, so that no terminal obeys it. The signs are the same as in rustc 1.95,
except that rustc leaves U+0080 to U+009F unchanged.
"""
from expandm import objects

# A character in a string, and the sign that is shown for it.
ROWS = (
    ("\x01", "␁"),
    ("\x07", "␇"),
    ("\b", "␈"),
    ("\x0b", "␋"),
    ("\x1b", "␛"),
    ("\x1f", "␟"),
    (" ", " "),
    ("~", "~"),
    ("\x7f", "␡"),
    ("\x80", "�"),
    ("\x9b", "�"),
    ("\x9f", "�"),
    ("\xa0", "\xa0"),
    ("é", "é"),
    ("\u200e", "\u200e"),
    ("\u2029", "\u2029"),
    ("\u202a", "�"),
    ("\u202e", "�"),
    ("\u202f", "\u202f"),
    ("\u2065", "\u2065"),
    ("\u2066", "�"),
    ("\u2069", "�"),
    ("\u206a", "\u206a"),
    ("�", "�"),
)


def test(program):
    for row in ROWS:
        char, sign = row
        files = {"a.rs": f'macro_rules! m {{ ("{char}") => {{}} }}\nm!(b, "{char}");\n'}
        ran = program.run(["a.rs"], files)
        line = f'    2 | m!(b, "{sign}");'
        program.check("controls.ROWS in lines", row, (ran.status, line in ran.err.split("\n")), (1, True))
        ran = program.run(["--explain", "a.rs"], files)
        said = ran.err.split("\n")
        wants = f'note: rule 1 of `m!` stops here; expected `"{sign}"`'
        lines = f'2 | m!(b, "{sign}");', f'1 | macro_rules! m {{ ("{sign}") => {{}} }}'
        program.check("controls.ROWS", row, [it in said for it in (wants, *lines)], [True] * 3)
        ran = program.run(["--explain", "--json", "a.rs"], files)
        texts = {at["text"][0]["text"] for it in objects(ran.err) for at in it["spans"]}
        program.check("controls.ROWS in JSON", row, f'm!(b, "{char}");' in texts, True)
