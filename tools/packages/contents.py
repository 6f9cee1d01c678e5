"""What a release is made of: the programs, the library, and the files of share/files.txt."""
import os
import re
import subprocess
import sys
from typing import NamedTuple

import common
from archives import Entry

# The programs, by the names of their crates.
PROGRAMS = ("expandm", "mbex", "mbe_lsp_main")
# Files of the repository that state the version, each with the text before it.
VERSIONS = {
    "bindings/rust/Cargo.toml": '\nversion = "',
    "bindings/rust/sys/Cargo.toml": '\nversion = "',
    "bindings/python/pyproject.toml": '\nversion = "',
    "bindings/c/mbe.pc": "\nVersion: ",
    "bindings/c/mbeConfigVersion.cmake": "\nset(PACKAGE_VERSION ",
    "crates/mbe_lsp/src/server.rt": '\npub const VERSION: &str = "',
    "editors/vscode/package.json": '\n  "version": "',
}


class Source(NamedTuple):
    """The origin of a release: its version, the time of its files, and its maintainer. It also has the
    folders of the programs and of the library, and a line on who proved them."""

    version: str
    epoch: int
    maintainer: str
    programs: str
    library: str
    origin: str


def git(*words):
    """What a command of git prints of this checkout, or nothing outside of a repository."""
    ran = common.run(["git", "-C", common.TOP, *words])
    return ran.stdout.strip() if ran.returncode == 0 else ""


def newer_source(path):
    """A source that is newer than the file that was built of it, or None."""
    built = os.stat(path).st_mtime
    for at, folders, names in os.walk(f"{common.TOP}/crates"):
        folders[:] = sorted(it for it in folders if it != "out")
        for name in sorted(names):
            if name.endswith((".rt", ".antt")) and os.stat(f"{at}/{name}").st_mtime > built:
                return f"{at}/{name}"
    return None


def proved_folders(room):
    """The folder of the proved programs, in `room`, and the one of the proved library."""
    made = f"{common.TOP}/crates"
    programs = [f"{made}/{name}/out/{name}" for name in PROGRAMS]
    for path in (*programs, f"{made}/mbe_c/out/libmbe_c.a"):
        if not os.path.exists(path):
            sys.exit(f"{os.path.relpath(path, common.TOP)} isn't there: run sh tests/all, or name "
                     "other programs by --programs and --library")
        if source := newer_source(path):
            sys.exit(f"{os.path.relpath(path, common.TOP)} is older than "
                     f"{os.path.relpath(source, common.TOP)}: run sh tests/all")
    for name in PROGRAMS:
        os.symlink(f"{made}/{name}/out/{name}", f"{room}/{name}")
    return room, f"{made}/mbe_c/out"


def version_of(programs):
    """The version that both programs print. It must be the one of all packages."""
    ran = common.run([f"{programs}/expandm", "--version"])
    found = re.fullmatch(r"expandm (\d+\.\d+\.\d+)\n", ran.stdout)
    if not found:
        sys.exit(f"{programs}/expandm --version prints {ran.stdout!r}")
    for file, before in VERSIONS.items():
        text = common.read(f"{common.TOP}/{file}")
        stated = re.search(re.escape(before) + r"(\d+\.\d+\.\d+)", text)
        if not stated or stated[1] != found[1]:
            sys.exit(f"{file} isn't of version {found[1]}, which expandm prints")
    return found[1]


def stripped(path):
    """The bytes of a program without the symbols for debuggers."""
    with common.folder() as room:
        words = ["strip", "--strip-all", "--remove-section=.comment", "-o", f"{room}/it", path]
        subprocess.run(words, check=True)
        with open(f"{room}/it", "rb") as it:
            return it.read()


def linked_library(source, room):
    """Links the packages' library in `room`, over the archive of the source."""
    os.symlink(f"{source.library}/libmbe_c.a", f"{room}/libmbe_c.a")
    subprocess.run(["sh", f"{common.TOP}/bindings/link.sh", room], check=True)


def entries(source, library):
    """The entries of an installation, below its prefix. `library` is the folder of the linked
    library."""
    found = []
    for line in common.read(f"{common.TOP}/share/files.txt").splitlines():
        if line.startswith("#"):
            continue
        mode, file, path = line.split()
        if mode == "link":
            found.append(Entry(path, link=file))
            continue
        folder, name = os.path.split(file)
        if name in PROGRAMS:
            data = stripped(f"{source.programs}/{name}")
        elif folder == "crates/mbe_c/out":
            data = read_bytes(f"{library}/{name}")
        else:
            data = read_bytes(f"{common.TOP}/{file}")
        found.append(Entry(path, int(mode, 8), data))
    found.append(Entry("share/doc/mbe/BUILD", 0o644, source.origin.encode()))
    return found


def read_bytes(path):
    with open(path, "rb") as it:
        return it.read()


def glibc_of(data):
    """The newest version of the C library that the symbols of a program or a library need."""
    found = {(2, 17)}
    for major, minor in re.findall(rb"GLIBC_(\d+)\.(\d+)", data):
        found.add((int(major), int(minor)))
    return max(found)
