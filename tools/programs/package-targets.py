#!/usr/bin/env python3
"""Compares the targets that `expandm --all-targets --plan` finds with those of `cargo metadata`.

    tools/programs/package-targets.py [--program EXPANDM] [FOLDER]

FOLDER has packages, each in a folder of its own: /usr/share/cargo/registry, Debian's, by default.
The script copies each package, and removes the dependencies and the features from the copy's
manifest, since these need other packages. Build scripts are left out on both sides.
"""
import json
import os
import re
import shutil
import subprocess
import sys

sys.path.insert(0, os.path.dirname(os.path.dirname(os.path.abspath(__file__))))
import common  # noqa: E402

SECTION = re.compile(r"^\[+([^\]]*)\]+\s*$")
LEFT_OUT = re.compile(r"dependencies|features|target\.|badges|lints|patch|workspace")
KINDS = {"bin", "example", "test", "bench"}


def stripped(manifest):
    """The manifest without the tables that need other packages."""
    kept, is_kept = [], True
    for line in manifest.split("\n"):
        section = SECTION.match(line)
        if section:
            is_kept = not LEFT_OUT.search(section[1])
        if is_kept and not line.startswith(("required-features", "links")):
            kept.append(line)
    return "\n".join(kept) + "\n[workspace]\n"


def by_cargo(folder):
    """The targets by Cargo, each as its kind of root and edition, or None if Cargo refuses it."""
    ran = subprocess.run(["cargo", "metadata", "--offline", "--no-deps", "--format-version", "1"],
                         cwd=folder, capture_output=True, text=True, check=False)
    if ran.returncode:
        return None
    found = set()
    for target in json.loads(ran.stdout)["packages"][0]["targets"]:
        if "custom-build" not in target["kind"]:
            name = target["name"].replace("-", "_")
            found.add((name, target["edition"], os.path.relpath(target["src_path"], folder)))
    return found


def by_expandm(program, folder):
    """The targets by `expandm`, or its error."""
    ran = subprocess.run([program, "--all-targets", "--plan"], cwd=folder, capture_output=True,
                         text=True, check=False)
    if ran.returncode:
        return ran.stderr
    plans = re.split(r"^// .*\n", ran.stdout, flags=re.M)
    heads = [plan.split("\n")[0].split(" ") for plan in plans if plan]
    return {(name, edition, root) for name, edition, root in heads}


def main():
    parser = common.arguments(__doc__)
    common.add_expandm(parser)
    parser.add_argument("folder", nargs="?", metavar="FOLDER", default="/usr/share/cargo/registry")
    given = parser.parse_args()
    program = common.expandm(given.program)
    passed = failed = 0
    for name in sorted(os.listdir(given.folder)):
        manifest = f"{given.folder}/{name}/Cargo.toml"
        if not os.path.exists(manifest):
            continue
        with common.folder() as folder:
            at = f"{folder}/{name}"
            shutil.copytree(os.path.dirname(manifest), at)
            common.write(f"{at}/Cargo.toml", stripped(common.read(manifest)))
            wanted, got = by_cargo(at), by_expandm(program, at)
        if wanted is None or got == wanted:
            passed += wanted is not None
            continue
        failed += 1
        print(f"{name}:\n  cargo   {wanted}\n  expandm {got}")
    return common.finish(passed, failed)


if __name__ == "__main__":
    sys.exit(main())
