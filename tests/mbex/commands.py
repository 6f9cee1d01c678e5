"""The whole program on files: its status, its output and its line on standard error, also if it can't write them."""
import ctypes
import os
import resource
import signal
import tempfile

from programs import text_of, write

FILES = {
    "first.def": "($x:ident = $t:tt;) => { pair ($t) $x }",
    "first.arg": "a = 1;",
    "good.def": "($x:ident) => {$x}",
    "old.def": "($p:pat) => {}",
    "refused.def": "() => {} x",
    "good.arg": "a",
    "other.arg": "1",
    "either.arg": "a | b",
    "open.arg": 'a "b',
    "empty": "",
    "latin": b"a\xff",
    "half": b"a\xc3",
}

# The arguments, the status, standard output, and the line on standard error without its end. The argument `?` is a byte
# that is in no text. Nobody may read `secret`, reading `broken` fails, and `huge` is larger than the memory of a run.
RUNS = (
    (
        "first.def first.arg", 0,
        "arm 0\n"
        "SUBTREE $$ 1@0..6 1@0..6\n"
        "  IDENT   pair 0@25..29\n"
        "  SUBTREE () 0@30..31 0@33..34\n"
        "    LITERAL Integer 1 1@4..5\n"
        "  IDENT   a 1@0..1\n",
        "",
    ),
    ("good.def good.arg", 0, "arm 0\nSUBTREE $$ 1@0..1 1@0..1\n  IDENT   a 1@0..1\n", ""),
    ("good.def good.arg 2015", 0, "arm 0\nSUBTREE $$ 1@0..1 1@0..1\n  IDENT   a 1@0..1\n", ""),
    ("good.def good.arg 2018", 0, "arm 0\nSUBTREE $$ 1@0..1 1@0..1\n  IDENT   a 1@0..1\n", ""),
    ("good.def good.arg 2021", 0, "arm 0\nSUBTREE $$ 1@0..1 1@0..1\n  IDENT   a 1@0..1\n", ""),
    ("good.def good.arg 2024", 0, "arm 0\nSUBTREE $$ 1@0..1 1@0..1\n  IDENT   a 1@0..1\n", ""),
    # `pat` matches a `|` from edition 2021 on.
    ("old.def either.arg 2021", 0, "arm 0\nSUBTREE $$ 1@0..5 1@0..5\n", ""),
    ("old.def either.arg 2018", 1, "error: leftover tokens at 1@0..5\narm 0\nSUBTREE $$ 1@0..5 1@0..5\n", ""),
    (
        "good.def other.arg", 1,
        "error: expected ident at 1@0..1\n"
        "arm 0\n"
        "SUBTREE $$ 1@0..1 1@0..1\n"
        "  IDENT   missing 0@16..17\n",
        "",
    ),
    (
        "good.def empty", 1,
        "error: expected ident at 1@0..0\n"
        "arm 0\n"
        "SUBTREE $$ 1@0..0 1@0..0\n"
        "  IDENT   missing 0@16..17\n",
        "",
    ),
    ("empty good.arg", 1, "error: no rule matches input tokens at 1@0..1\narm none\nSUBTREE $$ 1@0..1 1@0..1\n", ""),
    ("empty empty", 1, "error: no rule matches input tokens at 1@0..0\narm none\nSUBTREE $$ 1@0..0 1@0..0\n", ""),
    ("refused.def good.arg", 2, "", "definition refused: expected `;`"),
    # The files in the other order.
    ("good.arg good.def", 2, "", "definition refused: expected subtree"),
    ("--lint good.def good.arg", 0, "rule 0: one reading\n", ""),
    ("--lint good.def other.arg", 0, "rule 0: stuck at 0\n", ""),
    ("--lint good.def other.arg 2018", 0, "rule 0: stuck at 0\n", ""),
    # `pat` matches the first name alone.
    ("--lint old.def either.arg 2018", 0, "rule 0: stuck at 1\n", ""),
    ("--lint old.def either.arg 2021", 0, "rule 0: one reading\n", ""),
    ("--lint empty good.arg", 0, "", ""),
    ("--lint refused.def good.arg", 2, "", "definition refused: expected `;`"),
    ("--lint", 3, "", "usage: mbex [--lint] DEF-FILE ARG-FILE [EDITION]"),
    ("--lint good.def missing", 3, "", "cannot read missing"),
    ("--lint missing good.arg", 3, "", "cannot read missing"),
    ("--lint good.def good.arg 2022", 3, "", "usage: mbex [--lint] DEF-FILE ARG-FILE [EDITION]"),
    ("--lint good.def open.arg", 4, "", "cannot lex open.arg at 2"),
    ("", 3, "", "usage: mbex [--lint] DEF-FILE ARG-FILE [EDITION]"),
    ("good.def", 3, "", "usage: mbex [--lint] DEF-FILE ARG-FILE [EDITION]"),
    ("good.def good.arg 2022", 3, "", "usage: mbex [--lint] DEF-FILE ARG-FILE [EDITION]"),
    ("good.def good.arg 2024 more", 3, "", "usage: mbex [--lint] DEF-FILE ARG-FILE [EDITION]"),
    ("--lint good.arg", 3, "", "usage: mbex [--lint] DEF-FILE ARG-FILE [EDITION]"),
    ("good.def ?", 3, "", "usage: mbex [--lint] DEF-FILE ARG-FILE [EDITION]"),
    ("missing good.arg", 3, "", "cannot read missing"),
    ("good.def missing", 3, "", "cannot read missing"),
    ("missing latin", 3, "", "cannot read missing"),
    ("latin missing", 3, "", "cannot read latin"),
    ("latin open.arg", 3, "", "cannot read latin"),
    ("good.def latin", 3, "", "cannot read latin"),
    ("half good.arg", 3, "", "cannot read half"),
    ("secret good.arg", 3, "", "cannot read secret"),
    ("good.def secret", 3, "", "cannot read secret"),
    ("folder good.arg", 3, "", "cannot read folder"),
    ("good.def folder", 3, "", "cannot read folder"),
    (". good.arg", 3, "", "cannot read ."),
    ("good.def .", 3, "", "cannot read ."),
    ("/proc/self/mem good.arg", 3, "", "cannot read /proc/self/mem"),
    ("broken good.arg", 3, "", "cannot read broken"),
    ("open.arg missing", 3, "", "cannot read missing"),
    ("open.arg good.arg", 4, "", "cannot lex open.arg at 2"),
    ("good.def open.arg", 4, "", "cannot lex open.arg at 2"),
    ("refused.def open.arg", 4, "", "cannot lex open.arg at 2"),
    ("huge good.arg", 5, "", "out of memory"),
    ("good.def huge", 5, "", "out of memory"),
)

HUGE = 1 << 30
MEMORY = 100 << 20

# The number by which prctl drops a capability, and the two capabilities by which root reads every file.
PR_CAPBSET_DROP, CAP_DAC_OVERRIDE, CAP_DAC_READ_SEARCH = 24, 1, 2


def make_files(folder):
    for name, text in FILES.items():
        write(folder, name, text)
    write(folder, "secret", "a")
    os.chmod(f"{folder}/secret", 0)
    os.mkdir(f"{folder}/folder")
    os.symlink("/proc/self/mem", f"{folder}/broken")
    with open(f"{folder}/huge", "wb") as it:
        it.truncate(HUGE)


def limit():
    """In the new process: limits memory, and lets root read no file that nobody may read."""
    if os.geteuid() == 0:
        prctl = ctypes.CDLL(None).prctl
        prctl(PR_CAPBSET_DROP, CAP_DAC_OVERRIDE, 0, 0, 0)
        prctl(PR_CAPBSET_DROP, CAP_DAC_READ_SEARCH, 0, 0, 0)
    resource.setrlimit(resource.RLIMIT_AS, (MEMORY, MEMORY))


def closed(number):
    """Closes that output in the new process."""
    def before():
        os.close(number)
        limit()
    return before


def unread(number):
    """Makes that output a pipe that nobody reads."""
    def before():
        reading, writing = os.pipe()
        os.dup2(writing, number)
        os.close(reading)
        limit()
    return before


def full():
    """In the new process: makes standard output a device that accepts nothing."""
    os.dup2(os.open("/dev/full", os.O_WRONLY), 1)
    limit()


def to_file(room):
    """Makes standard output the file `out`, which accepts this number of bytes."""
    def before():
        os.dup2(os.open("out", os.O_WRONLY | os.O_CREAT | os.O_TRUNC), 1)
        signal.signal(signal.SIGXFSZ, signal.SIG_IGN)
        resource.setrlimit(resource.RLIMIT_FSIZE, (room, room))
        limit()
    return before


class Commands:
    """Runs of a program in a folder with the files."""

    def __init__(self, program, folder):
        self.program, self.folder = program, folder
        make_files(folder)

    def ends(self, row, before, want, what):
        """A run has that status, that output and that line."""
        words = [b"\xff" if word == "?" else word for word in row[0].split()]
        run = self.program.run_in(self.folder, words, before=before)
        status, output, line = want
        said = f"{line}\n" if line else ""
        self.program.check(what, row, (run.status, run.out + self.written(), run.err), (status, output, said))

    def written(self):
        """Removes the file `out`, and returns its content; nothing if there is no such file."""
        if not os.path.exists(f"{self.folder}/out"):
            return ""
        written = text_of(self.folder, "out")
        os.remove(f"{self.folder}/out")
        return written

    def breaks(self, row, before, room, what):
        """An output that accepts this number of bytes holds them, and the status is 3 unless they are all."""
        _, status, output, line = row
        want = (status, output, line) if room >= len(output) else (3, output[:room], "cannot write")
        self.ends(row, before, want, what)

    def is_ended(self, row):
        self.ends(row, limit, row[1:], "RUNS")

    def is_muted(self, row):
        """The same where no line can be written, which changes nothing else."""
        _, status, output, _ = row
        self.ends(row, closed(2), (status, output, ""), "RUNS, standard error is closed")
        self.ends(row, unread(2), (status, output, ""), "RUNS, nobody reads standard error")

    def is_broken(self, row):
        """A full device is reported after each number of bytes, and so is an output that nobody reads."""
        for room in range(len(row[2]) + 1):
            self.breaks(row, to_file(room), room, f"RUNS, room for {room} bytes")
        self.breaks(row, full, 0, "RUNS, a full device")
        self.breaks(row, unread(1), 0, "RUNS, nobody reads the output")


def test(program):
    with tempfile.TemporaryDirectory() as folder:
        commands = Commands(program, folder)
        for row in RUNS:
            commands.is_ended(row)
            commands.is_muted(row)
            commands.is_broken(row)
