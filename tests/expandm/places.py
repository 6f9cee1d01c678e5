"""Lines and columns of a text's bytes."""

# A text, a byte of it, the byte's line and column, and the line's text. A byte counts as if lines ended with a line feed alone.
# Nothing is reported beyond a text: a byte there counts as its end.
ROWS = (
    ("", 0, 1, 1, ""),
    ("", 9, 1, 1, ""),
    ("abc", 0, 1, 1, "abc"),
    ("abc", 2, 1, 3, "abc"),
    ("abc", 3, 1, 4, "abc"),
    ("abc", 4, 1, 4, "abc"),
    ("ab\ncd", 2, 1, 3, "ab"),
    ("ab\ncd", 3, 2, 1, "cd"),
    ("ab\ncd\n", 5, 2, 3, "cd"),
    ("ab\ncd\n", 6, 3, 1, ""),
    ("\n\n\n", 1, 2, 1, ""),
    ("éb\n中d\n", 2, 1, 2, "éb"),
    ("éb\n中d\n", 7, 2, 2, "中d"),
    ("a\r\nb\r\n", 2, 2, 1, "b"),
)

# Text that isn't Rust anywhere.
FAULT = "`"


def faulty(text, at):
    """The text with a fault before that byte."""
    plain = text.replace("\r\n", "\n").encode()
    marked = (plain[:at] + FAULT.encode() + plain[at:]).decode()
    return marked.replace("\n", "\r\n") if "\r\n" in text else marked


def test(program):
    for row in ROWS:
        text, at, line, column, shown = row
        marked = faulty(text, at)
        ran = program.run(["a.rs"], {"a.rs": marked})
        shown = shown[: column - 1] + FAULT + shown[column - 1 :]
        caret = " " * (column - 1) + "^"
        said = f"a.rs:{line}:{column}: error: unknown start of token\n{line:5} | {shown}\n      | {caret}\n1 error\n"
        program.check("places.ROWS", row, (ran.status, ran.out, ran.err), (1, marked, said))
