"""The Debian packages of a release: `mbe` has the programs, `libmbe1` the shared library, and
`libmbe-dev` what C programs are compiled with."""
import email.utils
import hashlib
import re
import textwrap

import common
import contents
from archives import Entry, ar, gzipped, tar, xzipped

LIB = "usr/lib/x86_64-linux-gnu"
# Folders of an installation, and where Debian has them. The first one that fits counts.
PLACES = [
    ("lib/", f"{LIB}/"),
    ("share/zsh/site-functions/", "usr/share/zsh/vendor-completions/"),
    ("share/doc/mbe/examples/", "usr/share/doc/libmbe-dev/examples/"),
    ("", "usr/"),
]
# The files that have names for earlier programs, and what Debian has in a form of its own.
LEFT_OUT = re.compile(
    r"lib/libmbe_c\..*|share/doc/mbe/examples/.*\.(py|rs)"
    r"|share/doc/mbe/(LICENSE|NOTICE|BUILD|INSTALL\.md|CHANGELOG\.md)")
PACKAGES = {
    "mbe": ("devel", "libc6 (>= {glibc})", "expander for Rust's declarative macros", """
        The program expandm expands the macros of Rust files and Cargo packages, those of
        macro_rules! and macro. It explains calls that no rule matches, and checks definitions.
        The program mbex expands one call, and prints the place of each token. The program mbe-lsp
        is a language server: it shows all this in an editor.""", ""),
    "libmbe1": ("libs", "libc6 (>= {glibc})", "expander for Rust's declarative macros, library", """
        The library expands one call of a macro of Rust, over text or over tokens. No input can
        crash a call. This package has the shared library.""", "Multi-Arch: same\n"),
    "libmbe-dev": ("libdevel", "libmbe1 (= {version})",
                   "expander for Rust's declarative macros, development files", """
        The library expands one call of a macro of Rust, over text or over tokens. No input can
        crash a call. This package has the header for C and C++, the static library, examples, and
        the files for pkg-config and CMake.""", "Multi-Arch: same\n"),
}
COPYRIGHT = """\
Format: https://www.debian.org/doc/packaging-manuals/copyright-format/1.0/
Upstream-Name: mbe
Comment:
{notice}

Files: *
Copyright: {years} the mbe authors
License: Expat
{license}
"""


def package_of(path):
    """The package that a file of an installation is in."""
    if path == "lib/libmbe.so.1":
        return "libmbe1"
    is_dev = path.startswith(("lib/", "include/", "share/doc/mbe/examples/"))
    return "libmbe-dev" if is_dev else "mbe"


def placed(entry):
    """An entry of an installation, where Debian has it. Man pages and long texts are compressed."""
    before, after = next(it for it in PLACES if entry.path.startswith(it[0]))
    path, data = after + entry.path[len(before):], entry.data
    if path == f"{LIB}/pkgconfig/mbe.pc":
        text = data.decode().replace("prefix=${pcfiledir}/../..", "prefix=/usr")
        data = text.replace("${prefix}/lib", "${prefix}/lib/x86_64-linux-gnu").encode()
    if "/man/" in path and entry.link:
        return Entry(f"{path}.gz", link=f"{entry.link}.gz")
    if "/man/" in path or path.endswith(".md"):
        path, data = f"{path}.gz", gzipped(data)
    return Entry(path, entry.mode, data, entry.link)


def indented(text):
    """A text as a field of a Debian file: each line is indented, and a `.` stands for no line."""
    return "\n".join(f" {line}" if line.strip() else " ." for line in text.strip().split("\n"))


def documents(name, source):
    """The files that each package has: its copyright, its changes, and their log for Debian."""
    text = common.read(f"{common.TOP}/LICENSE")
    years = re.search(r"Copyright \(c\) ([\d-]+)", text)[1]
    license_text = text.split("\n\n", 2)[2]
    copyright_text = COPYRIGHT.format(notice=indented(common.read(f"{common.TOP}/NOTICE")),
                                      years=years, license=indented(license_text))
    log = (f"mbe ({source.version}) unstable; urgency=medium\n\n"
           f"  * Version {source.version}. CHANGELOG.md of the package mbe lists the changes.\n\n"
           f" -- {source.maintainer}  {email.utils.formatdate(source.epoch)}\n")
    folder = f"usr/share/doc/{name}"
    yield Entry(f"{folder}/BUILD", 0o644, source.origin.encode())
    yield Entry(f"{folder}/copyright", 0o644, copyright_text.encode())
    yield Entry(f"{folder}/changelog.gz", 0o644, gzipped(log.encode()))
    if name == "mbe":
        changes = common.read(f"{common.TOP}/CHANGELOG.md").encode()
        yield Entry(f"{folder}/CHANGELOG.md.gz", 0o644, gzipped(changes))


def symbols(library, version):
    """The text of the file that says which package of a version has a symbol."""
    with common.folder() as room:
        with open(f"{room}/it", "wb") as it:
            it.write(library)
        said = common.run(["nm", "-D", "--with-symbol-versions", f"{room}/it"]).stdout
    names = sorted(re.findall(r" T (mbe_c_\w+@)@(\w+)$", said, re.M))
    lines = [f" MBE_1@MBE_1 {version}", *(f" {name}{node} {version}" for name, node in names)]
    return "\n".join(["libmbe.so.1 libmbe1 #MINVER#", *lines]) + "\n"


def control(name, files, source, glibc):
    """The bytes of the tar file that describes a package."""
    section, depends, title, description, more = PACKAGES[name]
    size = sum(-(-len(it.data) // 1024) for it in files)
    depends = depends.format(glibc=glibc, version=source.version)
    text = textwrap.fill(" ".join(description.split()), 78)
    fields = (f"Package: {name}\nVersion: {source.version}\nArchitecture: amd64\n"
              f"Maintainer: {source.maintainer}\nInstalled-Size: {size}\nDepends: {depends}\n"
              f"Section: {section}\nPriority: optional\n{more}Source: mbe\n"
              f"Description: {title}\n{indented(text)}\n")
    if name == "mbe":
        fields = fields.replace("Source: mbe\n", "")
    md5 = "".join(f"{hashlib.md5(it.data).hexdigest()}  {it.path}\n"
                  for it in sorted(files) if it.link is None)
    found = [Entry("control", 0o644, fields.encode()), Entry("md5sums", 0o644, md5.encode())]
    if name == "libmbe1":
        library = next(it.data for it in files if it.path.endswith("/libmbe.so.1"))
        found.append(Entry("shlibs", 0o644, f"libmbe 1 libmbe1 (>= {source.version})\n".encode()))
        found.append(Entry("symbols", 0o644, symbols(library, source.version).encode()))
        found.append(Entry("triggers", 0o644, b"activate-noawait ldconfig\n"))
    return xzipped(tar(found, source.epoch, "./"))


def packages(entries, source):
    """The name of each package's file, with its bytes."""
    for name in PACKAGES:
        own = [it for it in entries
               if package_of(it.path) == name and not LEFT_OUT.fullmatch(it.path)]
        files = [placed(it) for it in own] + list(documents(name, source))
        glibc = max(contents.glibc_of(it.data) for it in own)
        members = [("debian-binary", b"2.0\n"),
                   ("control.tar.xz", control(name, files, source, "{}.{}".format(*glibc))),
                   ("data.tar.xz", xzipped(tar(files, source.epoch, "./")))]
        yield f"{name}_{source.version}_amd64.deb", ar(members, source.epoch)
