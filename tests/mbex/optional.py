"""The memory that many optional parts need: each part that may be skipped is one more thread at each offset."""
import subprocess
import sys
import tempfile

from mbex import ARG, DEF, printed
from programs import text_of, write

# A row has, in this order:
#
# 1. A part of a pattern, with its number, and the part of the template that emits it.
# 2. The part of an argument that it matches, and the line that is printed for that, with its bytes, the last before a blank.
# 3. The number of parts, and how many megabytes a run may hold. If entries were kept that no thread needs any more, the runs
#    would hold 841 and 116.
PARTS = (
    ("$(a)? ", "", "a ", "", 2000, 150),
    ("$(k{0} $x{0}:ident)? ", "$($x{0})? ", "k{0} v ", "  IDENT   v 1@{0}..{1}\n", 2000, 60),
)


# Runs a program in a process of its own and prints its status and how many kilobytes it held at most. A process that is started
# counts what the one that starts it holds, so the tests can't start the program themselves.
MEASURING = """import resource, subprocess, sys
ran = subprocess.run(sys.argv[2:], stdout=open(sys.argv[1], "wb"), stderr=subprocess.STDOUT)
print(ran.returncode, resource.getrusage(resource.RUSAGE_CHILDREN).ru_maxrss)"""


def held(program, files, words):
    """How a run ended, what it printed, and how many megabytes it held at most."""
    with tempfile.TemporaryDirectory() as folder:
        for path, text in files.items():
            write(folder, path, text)
        measuring = [sys.executable, "-c", MEASURING, "printed", program.path, *words]
        ran = subprocess.run(measuring, cwd=folder, capture_output=True, check=True)
        status, most = (int(word) for word in ran.stdout.split())
        return (status, text_of(folder, "printed")), most // 1024


def test(program):
    for row in PARTS:
        part, written, given, shown, count, megabytes = row
        pattern, template, argument = (
            "".join(text.format(number) for number in range(count)) for text in (part, written, given)
        )
        trees, end = "", 0
        for number in range(count):
            end += len(given.format(number))
            trees += shown.format(end - 2, end - 1)
        run, most = held(program, {DEF: f"({pattern}) => {{{template}}}", ARG: argument}, [DEF, ARG, "2024"])
        program.check("PARTS", row, (run, most <= megabytes), (printed(argument, "", 0, trees), True))
