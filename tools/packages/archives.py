"""Archives whose bytes depend on their entries alone: tar, gzip, xz and ar.

The entries are sorted by name, belong to root, and have one time. An entry's folders are entries
before it.
"""
import gzip
import hashlib
import io
import lzma
import os
import tarfile
from typing import NamedTuple, Optional


class Entry(NamedTuple):
    """A file or a link of a package: its path, without a `/` at the start; its mode; its bytes, or
    the text of the link."""

    path: str
    mode: int = 0o644
    data: bytes = b""
    link: Optional[str] = None


def folders_of(entries):
    """The paths of all folders above the entries, sorted."""
    found = set()
    for it in entries:
        folder = os.path.dirname(it.path)
        while folder:
            found.add(folder)
            folder = os.path.dirname(folder)
    return sorted(found)


def tar(entries, epoch, before=""):
    """The bytes of a tar file. Each name gets `before` in front of it."""
    out = io.BytesIO()
    rows = [(it, tarfile.DIRTYPE, Entry(it, 0o755)) for it in folders_of(entries)]
    rows += [(it.path, tarfile.REGTYPE if it.link is None else tarfile.SYMTYPE, it)
             for it in entries]
    with tarfile.open(fileobj=out, mode="w", format=tarfile.GNU_FORMAT) as made:
        for path, kind, entry in sorted(rows, key=lambda row: row[0]):
            info = tarfile.TarInfo(before + path)
            info.type, info.mtime, info.uname, info.gname = kind, epoch, "root", "root"
            info.mode = 0o777 if kind == tarfile.SYMTYPE else entry.mode
            info.linkname, info.size = entry.link or "", len(entry.data)
            made.addfile(info, io.BytesIO(entry.data))
    return out.getvalue()


def gzipped(data):
    """The bytes, compressed by gzip without a name and a time."""
    return gzip.compress(data, 9, mtime=0)


def xzipped(data):
    """The bytes, compressed by xz."""
    return lzma.compress(data, format=lzma.FORMAT_XZ, preset=6)


def ar(members, epoch):
    """The bytes of an archive of `ar`, as a Debian package is: names of at most 16 bytes, and
    their bytes."""
    out = b"!<arch>\n"
    for name, data in members:
        out += f"{name:<16}{epoch:<12}{0:<6}{0:<6}{'100644':<8}{len(data):<10}`\n".encode()
        out += data + b"\n" * (len(data) % 2)
    return out


def sums(folder):
    """The text of SHA256SUMS for the files of a folder."""
    lines = []
    for name in sorted(os.listdir(folder)):
        with open(f"{folder}/{name}", "rb") as it:
            lines.append(f"{hashlib.sha256(it.read()).hexdigest()}  {name}\n")
    return "".join(lines)
