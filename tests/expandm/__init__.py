"""Helpers of the tests of `expandm`: texts with a definition, files in rows, and parts of reports."""
import json
import re


def defined(rules, rest):
    """The text of a definition, and the text after it in the next line."""
    return f"macro_rules! {rules}\n{rest}"


def check_becomes(program, table, row, text, want):
    """A text has this expansion, also with calls nine deep in others, and nothing is reported."""
    ran = program.run(["--depth", "9", "a.rs"], {"a.rs": text})
    program.check(table, row, (ran.status, ran.out, ran.err), (0, want, ""))


def check_like(program, table, rows):
    """The text after a definition has the expansion of the row, and nothing is reported."""
    for row in rows:
        rules, rest, want = row
        check_becomes(program, table, row, defined(rules, rest), defined(rules, want))


def files_of(row):
    """Files by path, each `PATH: TEXT`, with a `|` between them."""
    return dict(file.split(": ", 1) for file in row.split("|"))


def diagnostics(err):
    """The diagnostics in JSON, an object in each line."""
    return [json.loads(line) for line in err.split("\n") if line]


def objects(err):
    """The diagnostics in JSON, each before its children."""
    return [it for report in diagnostics(err) for it in (report, *report["children"])]


def shown(report):
    """An object's line and column, its bytes, its level and its message."""
    (at,) = report["spans"]
    place = f"{at['line_start']}:{at['column_start']} {at['byte_start']}..{at['byte_end']}"
    return f"{place} {report['level']}: {report['message']}\n"


def counted(program, words, files, stdin=""):
    """A run, and how many reports it has. With `--json` it has as many, and nothing else differs. Its status is 1 exactly if a report is an
    error."""
    ran = program.run(words, files, stdin)
    again = program.run(["--json", *words], files, stdin)
    reports = objects(again.err)
    in_lines = re.findall(r"^\S+:\d+:\d+: (error|note|help): ", ran.err, re.M)
    is_so = [report["level"] for report in reports] == in_lines and ran.status == int("error" in in_lines)
    is_same = (ran.status, ran.out, ran.files) == (again.status, again.out, again.files)
    return ran, len(reports) if is_so and is_same else (ran, again)


def messages(err):
    """The reports in the form of rustc, each as its line and column, its level and its message."""
    found, last = [], ""
    for line in err.split("\n"):
        if line.lstrip().startswith("--> a.rs:"):
            found.append(f"{line.lstrip().removeprefix('--> a.rs:')} {last}")
        elif re.match("(error|warning|note|help): ", line):
            last = line
    return found


def notes(err):
    """The notes in the form of rustc, each as its line and column and its message."""
    return [f"{place} {note}" for place, _, note in (it.partition(" note: ") for it in messages(err)) if note]


def notes_in_lines(err):
    """The location and the message of each note in the form `FILE:LINE:COL: note: MESSAGE`."""
    return [f"{place} {note}" for place, note in re.findall(r"^a\.rs:(\d+:\d+): note: (.*)$", err, re.M)]


def joined(parts):
    """The parts with a `; ` after each."""
    return "".join(f"{part}; " for part in parts)
