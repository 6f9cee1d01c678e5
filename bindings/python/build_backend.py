"""Builds the wheel, as pyproject.toml says, with Python alone.

`pip wheel .` takes the library from the folder `MBE_LIB_DIR`. The bytes of the wheel depend on the
files alone: their time is SOURCE_DATE_EPOCH, or else 1980.
"""
import base64
import hashlib
import io
import os
import re
import time
import tomllib
import zipfile

HERE = os.path.dirname(os.path.abspath(__file__))
EARLIEST = 315532800  # 1980, before which zip files have no times


def read(path):
    with open(path, "rb") as it:
        return it.read()


def project():
    return tomllib.loads(read(f"{HERE}/pyproject.toml").decode())["project"]


def tag(library):
    """The tag of the wheel. manylinux_2_17 has version 2.17 of the C library."""
    needed = {(2, 17), *((int(a), int(b)) for a, b in re.findall(rb"GLIBC_(\d+)\.(\d+)", library))}
    return "py3-none-manylinux_{}_{}_x86_64".format(*max(needed))


def metadata():
    it = project()
    lines = ["Metadata-Version: 2.1", f"Name: {it['name']}", f"Version: {it['version']}",
             f"Summary: {it['description']}", f"Keywords: {','.join(it['keywords'])}",
             f"License: {it['license']['text']}",
             *(f"Classifier: {row}" for row in it["classifiers"]),
             f"Requires-Python: {it['requires-python']}", "License-File: LICENSE",
             "Description-Content-Type: text/markdown", "", read(f"{HERE}/README.md").decode()]
    return "\n".join(lines).encode()


def licence():
    """The licence: beside this file, or at the top of the repository."""
    path = f"{HERE}/LICENSE"
    return read(path if os.path.exists(path) else f"{HERE}/../../LICENSE")


def files(library, origin):
    """The path and the bytes of each file of the wheel, except the last one, RECORD."""
    it = project()
    info = f"{it['name']}-{it['version']}.dist-info"
    for name in sorted(os.listdir(f"{HERE}/mbe")):
        if name.endswith((".py", ".typed")):
            yield f"mbe/{name}", read(f"{HERE}/mbe/{name}")
    yield "mbe/libmbe.so.1", library
    yield f"{info}/METADATA", metadata()
    yield f"{info}/WHEEL", (f"Wheel-Version: 1.0\nGenerator: mbe\nRoot-Is-Purelib: false\n"
                            f"Tag: {tag(library)}\n").encode()
    yield f"{info}/LICENSE", licence()
    if origin:
        yield f"{info}/BUILD", origin


def wheel(library, epoch, origin=b""):
    """The name of the wheel with this library, and its bytes. `origin` says where the library is
    from."""
    it, out, record = project(), io.BytesIO(), []
    stamp = time.gmtime(max(epoch, EARLIEST))[:6]
    name = f"{it['name']}-{it['version']}"

    def add(made, path, data):
        info = zipfile.ZipInfo(path, stamp)
        info.external_attr = (0o755 if path.endswith(".so.1") else 0o644) << 16
        info.create_system, info.compress_type = 3, zipfile.ZIP_DEFLATED
        made.writestr(info, data, compresslevel=9)

    with zipfile.ZipFile(out, "w") as made:
        for path, data in files(library, origin):
            add(made, path, data)
            digest = base64.urlsafe_b64encode(hashlib.sha256(data).digest()).rstrip(b"=").decode()
            record.append(f"{path},sha256={digest},{len(data)}\n")
        path = f"{name}.dist-info/RECORD"
        add(made, path, "".join([*record, f"{path},,\n"]).encode())
    return f"{name}-{tag(library)}.whl", out.getvalue()


def build_wheel(wheel_directory, config_settings=None, metadata_directory=None):
    folder = os.environ.get("MBE_LIB_DIR")
    if not folder or not os.path.exists(f"{folder}/libmbe.so.1"):
        raise SystemExit("mbe: set MBE_LIB_DIR to the folder of libmbe.so.1")
    epoch = int(os.environ.get("SOURCE_DATE_EPOCH", EARLIEST))
    name, data = wheel(read(f"{folder}/libmbe.so.1"), epoch)
    with open(f"{wheel_directory}/{name}", "wb") as it:
        it.write(data)
    return name


def build_sdist(sdist_directory, config_settings=None):
    raise SystemExit("mbe: there is no source distribution, since the library isn't in Python")
