"""What the tools share: the repository's root, rustc and cargo, the programs under test, files
and results.

A script in a folder of tools/ begins with

    sys.path.insert(0, os.path.dirname(os.path.dirname(os.path.abspath(__file__))))
    import common
"""
import argparse
import contextlib
import glob
import hashlib
import json
import os
import re
import shutil
import subprocess
import sys
import tempfile

sys.dont_write_bytecode = True

TOOLS = os.path.dirname(os.path.abspath(__file__))
TOP = os.path.dirname(TOOLS)
EDITIONS = ["2015", "2018", "2021", "2024"]
# The environment in which the stable rustc takes `-Z` options.
NIGHTLY = {**os.environ, "RUSTC_BOOTSTRAP": "1"}
# The arguments of a program's run by `rt try`, in the folder of its crate.
SAMPLE_ARGS = {
    "expandm": "data/tour.rs",
    "mbex": "data/first.def data/first.arg",
    "mbe_lsp_main": "--version",
}


# ---- arguments and results

def arguments(doc, **how):
    """A parser of arguments whose `--help` prints the script's docstring."""
    name = os.path.relpath(os.path.abspath(sys.argv[0]), TOP)
    return argparse.ArgumentParser(
        prog=name, description=doc, formatter_class=argparse.RawDescriptionHelpFormatter, **how)


def add_expandm(parser, flag="--program"):
    """Adds the option that names the program `expandm`; without it `expandm` builds one."""
    parser.add_argument(flag, metavar="EXPANDM", type=os.path.abspath,
                        help="the program expandm; if left out, this checkout's, without proof")


def finish(passed, failed):
    """Prints the last line of a check, and returns its exit status: 0 if nothing failed."""
    print(f"{passed} passed, {failed} failed", flush=True)
    return 1 if failed or not passed else 0


def print_table(head, rows, out=None):
    """Prints rows of text under a head. A column is as wide as its longest text."""
    rows = [tuple(map(str, row)) for row in [head, *rows]]
    widths = [max(map(len, column)) for column in zip(*rows)]
    for row in rows:
        line = "  ".join(text.ljust(width) for text, width in zip(row, widths))
        print(line.rstrip(), file=out, flush=True)


# ---- files and folders

@contextlib.contextmanager
def folder(keep=None):
    """Makes a temporary folder, or the folder `keep`, which isn't removed at the end."""
    if keep:
        os.makedirs(keep, exist_ok=True)
        yield os.path.abspath(keep)
        return
    with tempfile.TemporaryDirectory(prefix="mbe-") as it:
        yield it


def read(path):
    """The text of a file, with its line ends. A byte that isn't UTF-8 becomes U+FFFD."""
    with open(path, encoding="utf-8", errors="replace", newline="") as it:
        return it.read()


def read_utf8(path):
    """The text of a file, or None if it can't be read or isn't UTF-8."""
    try:
        with open(path, encoding="utf-8", newline="") as it:
            return it.read()
    except (UnicodeDecodeError, OSError):
        return None


def write(path, text):
    """Writes a text to a file, and makes the file's folder if need be."""
    os.makedirs(os.path.dirname(path) or ".", exist_ok=True)
    with open(path, "w", encoding="utf-8", newline="") as it:
        it.write(text)


def rust_files(paths):
    """The Rust files that the paths name or hold, in order."""
    for path in paths:
        if os.path.isfile(path):
            yield path
        for at, folders, names in os.walk(path):
            folders.sort()
            yield from (os.path.join(at, name) for name in sorted(names) if name.endswith(".rs"))


def edition_of(text, default):
    """The edition that a line `// edition:YEAR` of a text names, or that default."""
    found = re.search(r"^//.*\bedition[:= ]+(20\d\d)", text, re.M)
    return found[1] if found else default


def edition_of_file(path, text):
    """As `edition_of`. The default is 2015 below a folder `test`, as in rustc's tests, else 2021."""
    return edition_of(text, "2015" if "/test/" in path else "2021")


# ---- programs

def run(command, binary=False, **how):
    """Runs a command, and returns its status with its output and its errors.

    These are text, with line ends as they are, or bytes if `binary`.
    """
    how = {"capture_output": True, "check": False, **how}
    if isinstance(how.get("input"), str):
        how["input"] = how["input"].encode()
    ran = subprocess.run([str(it) for it in command], **how)
    if not binary:
        ran.stdout = (ran.stdout or b"").decode(errors="replace")
        ran.stderr = (ran.stderr or b"").decode(errors="replace")
    return ran


def rustc(*args, edition="2021", program="rustc", **how):
    """Runs rustc in an edition."""
    return run([program, "--edition", edition, *args], **how)


def cargo(*args, **how):
    """Runs cargo without the network."""
    return run(["cargo", *args[:1], "--offline", *args[1:]], **how)


def reports(lines):
    """The diagnostics among the lines that `expandm --json` writes, each before its children."""
    for line in lines.splitlines():
        if line.startswith("{"):
            found = json.loads(line)
            yield from (found, *found["children"])


def first_error(said):
    """The first line of an error of rustc, or else the first line of its output."""
    lines = said.split("\n")
    return next((line for line in lines if line.startswith("error")), lines[0])


def instructions(command, statuses=None, **how):
    """How many instructions a run of a command takes, by valgrind's callgrind.

    The run must not end by a signal, and must end with one of `statuses` if they are given.
    """
    ran = run(["valgrind", "--tool=callgrind", "--callgrind-out-file=/dev/null", *command], **how)
    found = re.search(r"Collected : (\d+)", ran.stderr)
    is_wrong = ran.returncode < 0 or statuses and ran.returncode not in statuses
    if is_wrong or not found:
        sys.exit(f"status {ran.returncode} of {' '.join(map(str, command))}: {ran.stderr[-300:]}")
    return int(found[1])


def program(name, given=None):
    """The path of a program: the given one, or this checkout's, without proof.

    `name` is the name of its crate: `expandm`, `mbex` or `mbe_lsp_main`.
    """
    if given and not os.access(given, os.X_OK):
        sys.exit(f"no program at {given}")
    return os.path.abspath(given) if given else unproved(name)


def expandm(given=None):
    return program("expandm", given)


def mbex(given=None):
    return program("mbex", given)


def mbe_lsp(given=None):
    return program("mbe_lsp_main", given)


# ---- programs without proof

def sources():
    """The files that decide a program without proof: the crates, and the files that build it."""
    bench = f"{TOOLS}/speed/bench"
    found = [f"{TOP}/crates.txt", f"{TOP}/HANDLES", f"{bench}/unproved.sh", f"{bench}/hints.py"]
    for crate in sorted(os.listdir(f"{TOP}/crates")):
        for part in ("src", "specs"):
            for at, folders, names in os.walk(f"{TOP}/crates/{crate}/{part}"):
                folders.sort()
                found += [f"{at}/{name}" for name in sorted(names)]
    return [*found, *(it for it in ["/opt/rattle/KIT-ID"] if os.path.exists(it))]


def hash_of(parts):
    found = hashlib.sha256()
    for it in parts:
        found.update(it)
    return found.hexdigest()[:16]


def sources_hash():
    """A hash of the sources of a program without proof.

    A file in the cache keeps the hash, with the sizes and times of the sources. So the next call
    doesn't read the sources.
    """
    files = sources()
    states = ((path, os.stat(path)) for path in files)
    state = hash_of(f"{path} {it.st_size} {it.st_mtime_ns}\n".encode() for path, it in states)
    kept = f"{cache()}/sources-{hash_of([TOP.encode()])}"
    if os.path.exists(kept) and read(kept).startswith(f"{state} "):
        return read(kept).split()[1]
    names = (path.removeprefix(f"{TOP}/") for path in files)
    found = hash_of(f"{name}\0{read(path)}\0".encode() for name, path in zip(names, files))
    write(kept, f"{state} {found}\n")
    return found


def cache():
    """The folder that keeps programs without proof."""
    home = os.environ.get("XDG_CACHE_HOME") or os.path.expanduser("~/.cache")
    return f"{home}/mbe"


def drop_old(name):
    """Removes all but the five newest programs of that name from the cache."""
    found = glob.glob(f"{cache()}/{name}-*")
    for path in sorted(found, key=os.path.getmtime)[:-5]:
        os.remove(path)


def unproved(name):
    """The path of a program without proof. Builds it if the cache doesn't have it."""
    path = f"{cache()}/{name}-{sources_hash()}"
    if os.access(path, os.X_OK):
        return path
    print(f"building {name} without proof, for a minute or two", file=sys.stderr, flush=True)
    os.makedirs(cache(), exist_ok=True)
    # `rt try` writes into the folders of the crates, so it gets a copy of them.
    with folder() as room:
        for it in ("crates.txt", "HANDLES"):
            shutil.copy2(f"{TOP}/{it}", room)
        shutil.copytree(f"{TOP}/crates", f"{room}/crates", ignore=shutil.ignore_patterns("out"))
        env = {**os.environ, "CRATE": name, "ARGS": SAMPLE_ARGS[name]}
        made = f"{path}.{os.getpid()}"
        ran = run(["sh", f"{TOOLS}/speed/bench/unproved.sh", room, made], env=env,
                  stdin=subprocess.DEVNULL)
        if ran.returncode != 0:
            sys.exit(f"{name} isn't built: {(ran.stdout + ran.stderr)[-2000:]}")
        os.replace(made, path)
    drop_old(name)
    return path


# ---- programs of the tools' own, in Rattle

def lay_out(room, crate, libraries, with_proved=False):
    """Lays out a repository in `room`: a crate of the tools beside copies of libraries of this one.

    `crate` is the folder of that crate. Its sources end in `.in`, since the gate asks that a crate
    reads each Rattle file. `with_proved` copies what earlier checks proved of the libraries, unless
    `room` has an `out` of an earlier run. Returns the crate's folder in `room`.
    """
    name = os.path.basename(crate)
    lines = read(f"{TOP}/crates.txt").split("\n")
    kept = [line for it in libraries for line in lines if line.startswith(f"{it}:")]
    kept.append(f"{name}: {' '.join(libraries)}")
    write(f"{room}/crates.txt", "\n".join(kept) + "\n")
    for it in [*(f"{TOP}/crates/{library}" for library in libraries), crate]:
        to = f"{room}/crates/{os.path.basename(it)}"
        for part in ("src", "specs", "proofs"):
            shutil.rmtree(f"{to}/{part}", ignore_errors=True)
            if os.path.isdir(f"{it}/{part}"):
                shutil.copytree(f"{it}/{part}", f"{to}/{part}")
        if with_proved and os.path.isdir(f"{it}/out") and not os.path.exists(f"{to}/out"):
            shutil.copytree(f"{it}/out", f"{to}/out", symlinks=True)
    made = f"{room}/crates/{name}"
    for at, _, names in os.walk(made):
        for it in names:
            if it.endswith(".in"):
                os.replace(f"{at}/{it}", f"{at}/{it[:-len('.in')]}")
    return made


def build_proved(room, crate, libraries, prepare=lambda made: None):
    """Proves and builds a crate of the tools by `rt run`, and returns the path of its program."""
    made = lay_out(room, crate, libraries, with_proved=True)
    prepare(made)
    ran = run(["rt", "run"], cwd=made, stdin=subprocess.DEVNULL)
    if ran.returncode != 0:
        sys.exit((ran.stdout + ran.stderr)[-2000:])
    return f"{made}/out/{os.path.basename(crate)}"
