#!/usr/bin/env python3
"""Compares runs of `expandm` that run out of memory or can't write with the whole run, in each of
its modes.

Each row runs without a limit. Then it runs with less memory: at 64 limits between what the
program needs to begin and what the row needs, at least a page apart. The limits are for
`RLIMIT_DATA`, so not for the stack. Then the row runs with a standard output and a standard error
that are full or closed. No run may end by a signal. Two more rules hold:

- A run with less memory must equal the whole run, or end in status 2 with `out of memory` as the
  last report. Its output is then the front of the whole output. The file that it writes is the
  one of the whole run, or the front of it.
- A run with a full or closed output must end in a status other than 0, if it had anything to
  write.
"""
import os
import resource
import subprocess
import sys

sys.path.insert(0, os.path.dirname(os.path.dirname(os.path.abspath(__file__))))
import common  # noqa: E402

MACROS = """macro_rules! add { ($a:expr, $b:expr) => { $a + $b }; ($a:expr) => { $a } }
macro_rules! list { ($($x:ident),*) => { $(fn $x() { add!(1, 2); })* } }
macro_rules! two { ($($x:ident)? $($y:ident)?) => {} }
macro_rules! clash { ($($x:ident)* $y:ident) => {} }
macro_rules! bad { ($x:exp) => { $y }; ($x:expr $x:ty) => {} }
macro_rules! refused { ($x) => {} }
list!(a, b, c, d, e, f, g);
fn main() { let x = add!(1, 2); let y = add!(x); let z = add!(1; 2); two!(a); clash!(a b); other!(1); }
""" + "".join(f"fn f{n}() {{ add!({n}, add!({n})); add!({n};); }}\n" for n in range(300))
BROKEN = 'fn main() { let x = "'

# The arguments of a run, and the text of its one file.
ROWS = [
    ([], MACROS),
    (["--once"], MACROS),
    (["--depth", "1"], MACROS),
    (["--fuel", "2"], MACROS),
    (["--call", "7"], MACROS),
    (["--explain"], MACROS),
    (["--explain=8:39"], MACROS),
    (["--trace"], MACROS),
    (["--origin"], MACROS),
    (["--lint"], MACROS),
    (["--json"], MACROS),
    (["--explain", "--json"], MACROS),
    (["--trace", "--json"], MACROS),
    (["--lint", "--json"], MACROS),
    (["--coverage"], MACROS),
    (["--coverage=json"], MACROS),
    (["--coverage=lcov"], MACROS),
    (["--write", "written"], MACROS),
    ([], BROKEN),
    (["--lint"], BROKEN),
    (["--help"], ""),
    (["--version"], ""),
]

STEP = 4096
LIMITS = 64
MEMORY = b"out of memory"


def run(program, words, limit=None, out=subprocess.PIPE, err=subprocess.PIPE, closed=()):
    """One run in the current folder: its status, standard output and standard error."""

    def before():
        if limit is not None:
            resource.setrlimit(resource.RLIMIT_DATA, (limit, limit))
        for number in closed:
            os.close(number)

    done = subprocess.run([program, *words, "file.rs"], stdin=subprocess.DEVNULL, stdout=out, stderr=err, preexec_fn=before)
    return done.returncode, done.stdout, done.stderr


def written():
    """The file that `--write` made, if there is one."""
    try:
        with open("written/file.rs", "rb") as file:
            return file.read()
    except OSError:
        return None


def least(program, words, holds):
    """The least limit at which `holds` is true of the run, found by steps."""
    low, high = 0, 1 << 20
    while high - low > 1:
        middle = (low + high) // 2
        if holds(run(program, words, middle * STEP)):
            high = middle
        else:
            low = middle
    return high


def ends_well(status, out, err, whole):
    """Whether a run that isn't the whole one reports that it is out of memory, and printed nothing else."""
    lines = err.splitlines()
    return status == 2 and whole[1].startswith(out) and bool(lines) and MEMORY in lines[-1]


def memory_faults(program, words, whole, file):
    """Runs with less and less memory: how many, and what was wrong."""
    faults, runs = [], 0
    first = least(program, ["--version"], lambda result: result[0] == 0)
    last = least(program, words, lambda result: result == whole)
    for steps in sorted({first + (last - first) * number // LIMITS for number in range(LIMITS)}):
        if os.path.exists("written/file.rs"):
            os.remove("written/file.rs")
        status, out, err = run(program, words, steps * STEP)
        runs += 1
        if (status, out, err) == whole and written() == file:
            continue
        if not ends_well(status, out, err, whole):
            faults.append((words, steps * STEP, status, err[-200:]))
        elif not (file or b"").startswith(written() or b""):
            faults.append((words, steps * STEP, "another file is written"))
    return runs, faults


def writer_faults(program, words, whole):
    """Runs whose outputs are full or closed: how many, and what was wrong."""
    faults, runs = [], 0
    for number, name in ((1, "out"), (2, "err")):
        for closed in (False, True):
            runs += 1
            if closed:
                status = run(program, words, closed=(number,))[0]
            else:
                with open("/dev/full", "wb") as full:
                    status = run(program, words, **{name: full})[0]
            if status < 0 or (whole[number] and status == 0):
                faults.append((words, name, "closed" if closed else "full", status))
    return runs, faults


def main():
    parser = common.arguments(__doc__)
    parser.add_argument("program", metavar="EXPANDM", type=os.path.realpath)
    program = parser.parse_args().program
    runs, faults = 0, []
    with common.folder() as folder:
        os.chdir(folder)
        for words, text in ROWS:
            common.write("file.rs", text)
            os.makedirs("written", exist_ok=True)
            whole = run(program, words)
            file = written()
            for more, wrong in (memory_faults(program, words, whole, file), writer_faults(program, words, whole)):
                runs += more
                faults += wrong
            if os.path.exists("written/file.rs"):
                os.remove("written/file.rs")
    for fault in faults:
        print(*fault)
    print(f"{len(ROWS)} rows, {runs} runs: {len(faults)} faults")
    return common.finish(runs - len(faults), len(faults))


if __name__ == "__main__":
    sys.exit(main())
