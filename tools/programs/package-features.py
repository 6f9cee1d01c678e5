#!/usr/bin/env python3
"""Compares the features that `expandm --plan` enables with those of `cargo tree`, package by package.

    tools/programs/package-features.py [--program EXPANDM] [FOLDER..]

Each FOLDER has the package of a Cargo.toml. Without a FOLDER the script makes packages in a
temporary folder. Some are the packages of the rows of tests/expandm/packages.py. Others have the
dependencies DEPENDENCIES, which are in Debian's folder /usr/share/cargo/registry (`apt-get install
librust-*-dev`). Cargo runs offline. Procedural macros and what only they and build scripts use are
left out on both sides.
"""
import os
import re
import subprocess
import sys

sys.path.insert(0, os.path.dirname(os.path.dirname(os.path.abspath(__file__))))
import common  # noqa: E402

sys.path.insert(0, f"{common.TOP}/tests")
from expandm import packages  # noqa: E402

DEBIAN = "/usr/share/cargo/registry"
SETTINGS = f'[source.crates-io]\nreplace-with = "debian"\n[source.debian]\ndirectory = "{DEBIAN}"\n'
DEPENDENCIES = (
    'serde_json = "1"',
    'serde_json = { version = "1", features = ["preserve_order"] }',
    'serde_json = { version = "1", default-features = false, features = ["alloc", "raw_value"] }',
    'smallvec = { version = "1", features = ["union"] }',
    'rayon = "1"',
    'either = { version = "1", default-features = false }',
    'regex-syntax = { version = "0.6", default-features = false, features = ["unicode-perl"] }',
    'bitflags = "1"',
    'log = "0.4"',
    'log = { version = "0.4", features = ["std"] }',
    'rand = "0.8"',
    'rand = { version = "0.8", default-features = false, features = ["small_rng"] }',
    'hashbrown = { version = "0.12", features = ["raw"] }',
    'indexmap = { version = "1", features = ["std"] }',
    'lock_api = "0.4"',
    'getrandom = { version = "0.2", features = ["std"] }',
    'memoffset = "0.6"',
    'crossbeam-channel = "0.5"',
    'crossbeam-epoch = { version = "0.9", default-features = false }',
    'num_cpus = "1"',
    'lazy_static = { version = "1", features = ["spin_no_std"] }',
)
# The options that name targets, and the options of targets that use the dependencies of tests.
TARGETS = re.compile(r"--(lib|(bin|example|bench) \w+|test(=\w+)?)(?!\S)")
OF_TESTS = re.compile(r"--(test|example|bench)\b")


def rows(folder):
    """Makes the packages of the rows. Returns the folders, and the options for `expandm` of each."""
    for number, (words, files, _) in enumerate(packages.ROWS):
        at = f"{folder}/row{number}"
        for path, text in files.items():
            common.write(f"{at}/{path}", text)
        yield at, words.replace("--plan", "").split()


def from_debian(folder):
    """Makes a package for each dependency, and one with all of them. Returns the folders."""
    sets = [[one] for one in DEPENDENCIES]
    everything = {one.split()[0]: one for one in DEPENDENCIES}
    sets.append(list(everything.values()))
    for number, lines in enumerate(sets):
        at = f"{folder}/p{number}"
        head = f'[package]\nname = "p{number}"\nversion = "0.1.0"\nedition = "2021"\n'
        common.write(f"{at}/Cargo.toml", f"{head}[dependencies]\n" + "\n".join(lines) + "\n")
        common.write(f"{at}/src/lib.rs", "")
        common.write(f"{at}/.cargo/config.toml", SETTINGS)
        yield at, []


def run(command, folder):
    return subprocess.run(command, cwd=folder, capture_output=True, text=True, check=False)


def by_cargo(folder, words):
    """The features of each package by `cargo tree`, or None if Cargo can't resolve it."""
    if not os.path.exists(f"{folder}/Cargo.lock"):
        manifest = words[words.index("--manifest-path"):][:2] if "--manifest-path" in words else []
        if run(["cargo", "generate-lockfile", "--offline", *manifest], folder).returncode:
            return None
    # `cargo tree` has no options for targets: tests, examples and benchmarks use more dependencies.
    text = " ".join(words)
    kinds = "normal,dev,no-proc-macro" if OF_TESTS.search(text) else "normal,no-proc-macro"
    ran = run(["cargo", "tree", "--offline", "-e", kinds, "--prefix", "none", "--no-dedupe",
               "--format", "{p}\t{f}", *TARGETS.sub("", text).split()], folder)
    if ran.returncode:
        return None
    found = {}
    for line in ran.stdout.split("\n"):
        if line:
            package, _, features = line.removesuffix(" (*)").partition("\t")
            name, version = package.split()[:2]
            found[name, version[1:]] = sorted(filter(None, features.split(",")))
    return found


def by_expandm(program, folder, words):
    """The features of each package by `expandm --plan`, or the error."""
    ran = run([program, "--plan", *words], folder)
    if ran.returncode:
        return ran.stderr
    found = {}
    for line in ran.stdout.split("\n"):
        if line:
            _, _, root, *features = line.split(" ")
            at = os.path.dirname(os.path.join(folder, root))
            while not os.path.exists(f"{at}/Cargo.toml"):
                at = os.path.dirname(at)
            manifest = common.read(f"{at}/Cargo.toml")
            key = tuple(re.search(rf'^{word} = "([^"]*)"', manifest, re.M)[1] for word in ("name", "version"))
            found[key] = sorted(features[0].split(",")) if features else []
    return found


def main():
    parser = common.arguments(__doc__)
    common.add_expandm(parser)
    parser.add_argument("folders", nargs="*", metavar="FOLDER", type=os.path.abspath)
    given = parser.parse_args()
    program = common.expandm(given.program)
    passed = failed = 0
    with common.folder() as folder:
        every = [(at, []) for at in given.folders] or [*rows(folder), *from_debian(folder)]
        for at, words in every:
            wanted = by_cargo(at, words)
            if wanted is None:
                print(f"{at}: left out: Cargo can't resolve it")
                continue
            got = by_expandm(program, at, words)
            if got == wanted:
                passed += 1
                continue
            failed += 1
            print(f"{at}:\n  cargo   {wanted}\n  expandm {got}")
    return common.finish(passed, failed)


if __name__ == "__main__":
    sys.exit(main())
