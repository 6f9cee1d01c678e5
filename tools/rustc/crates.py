#!/usr/bin/env python3
"""Compares whole crates before and after `expandm`, by rustc: whether they compile, and how their
tests end.

REGISTRY is a folder of packages, such as /usr/share/cargo/registry of Debian's librust-*-dev.
NAMEs choose some of them by the names of their folders. A package counts if it has a library with
a `macro_rules!`.

1. Cargo builds a copy of the package, offline, with the packages of REGISTRY alone, under the
   features that `default` leads to. It also builds the tests of the library and of the folder
   `tests`, as far as their dev-dependencies exist. Each test runs by its name.
2. `expandm --write` expands each file of the library under the same options. These include the
   options that the build script sets.
3. Cargo builds and tests the expanded copy.

The script prints a row of a table for each package. The row has the calls that `expandm` expanded,
the errors that it reported, and whether the package builds before and after. It also has how many
tests passed, and what differs. A build script runs as the user who runs this script. One of them
replaced /dev/null by a file when it ran as root.
"""
import glob
import json
import os
import re
import resource
import shutil
import signal
import subprocess
import sys
import tomllib

sys.path.insert(0, os.path.dirname(os.path.dirname(os.path.abspath(__file__))))
import common  # noqa: E402

STEP = re.compile(r": note: to `")
ERROR = re.compile(r":\d+:\d+: error: ")
SECONDS = 8
TEST = re.compile(r"^test (\S.*?) \.\.\. (ok|FAILED|ignored)", re.M)
DROPPED = ("bin", "example", "bench", "test", "dev-dependencies", "profile", "badges", "patch", "workspace", "target", "lints")


def has_macros(folder):
    for path in glob.glob(f"{folder}/**/*.rs", recursive=True):
        if "macro_rules!" in common.read(path):
            return True
    return False


def version_of(text):
    return tuple(int(it) for it in re.findall(r"\d+", re.split(r"[-+]", text)[0])[:3])


def admits(wanted, version):
    """Whether a requirement of Cargo admits a version."""
    for one in wanted.split(","):
        sign, text = re.match(r"\s*([=<>~^]*)\s*(.*)", one).groups()
        least = version_of(text.replace("*", ""))
        padded = least + (0,) * (3 - len(least))
        fixed = next((i + 1 for i, it in enumerate(least) if it), len(least))
        held = {"=": version[:len(least)] == least, ">": version > padded, ">=": version >= padded, "<": version < padded,
                "<=": version[:len(least)] <= least, "~": version >= padded and version[:min(2, len(least))] == least[:2]}
        if not held.get(sign, version >= padded and version[:fixed] == least[:fixed] if least else True):
            return False
    return True


class Registry:
    def __init__(self, folder):
        self.folder = folder
        self.versions, self.folders = {}, {}
        for path in glob.glob(f"{folder}/*/Cargo.toml"):
            with open(path, "rb") as it:
                package = tomllib.load(it)["package"]
            self.versions.setdefault(package["name"], []).append(version_of(package["version"]))
            self.folders[package["name"], version_of(package["version"])] = os.path.dirname(path)

    def has(self, name, needs):
        if isinstance(needs, str):
            needs = {"version": needs}
        return any(admits(needs.get("version", "*"), it) for it in self.versions.get(needs.get("package", name), []))


def externs(manifest, registry, is_test):
    """Arguments of rustc that name the libraries of a package's dependencies, each in the latest version that is
    admitted."""
    words = []
    tables = [manifest["dependencies"], *(it.get("dependencies", {}) for it in manifest["target"].values())]
    for name, needs in {name: it for table in tables + [manifest.get("dev-dependencies", {})] * is_test for name, it in table.items()}.items():
        needs = {"version": needs} if isinstance(needs, str) else needs
        package = needs.get("package", name)
        versions = [it for it in registry.versions.get(package, []) if admits(needs.get("version", "*"), it)]
        if versions:
            folder = registry.folders[package, max(versions)]
            with open(f"{folder}/Cargo.toml", "rb") as it:
                library = tomllib.load(it).get("lib", {})
            called = name if "package" in needs else library.get("name", name)
            root = os.path.join(folder, library.get("path", "src/lib.rs"))
            words += ["--extern", f"{called.replace('-', '_')}={root}"] if os.path.exists(root) and not library.get("proc-macro") else []
    return words


def default_features(table, optional):
    """The features that `default` leads to, and the optional dependencies that they ask for."""
    found, asked, todo = {}, set(), ["default"]
    while todo:
        name = todo.pop()
        if name in table and name not in found:
            found[name] = table[name]
            todo += table[name]
        elif name not in table:
            plain = name.removeprefix("dep:").split("/")[0]
            if plain in optional:
                asked.add(plain)
            elif "/" in name and plain in table:
                todo.append(plain)
    for name, leads in found.items():
        found[name] = [it for it in leads if not ("?/" in it and it.split("?/")[0] not in asked)]
    return found, asked


def reduced(folder, manifest, registry, without):
    """The manifest without dependencies that the default features don't use, and without dev-dependencies that the
    registry lacks. It also lacks the dev-dependencies `without`, or all of them if `without` is None."""
    kept = {key: value for key, value in manifest.items() if key not in DROPPED}
    all_needs = [manifest, *manifest.get("target", {}).values()]
    optional = {name for table in all_needs for name, it in table.get("dependencies", {}).items() if isinstance(it, dict) and it.get("optional")}
    kept["features"], asked = default_features(manifest.get("features", {}), optional)
    used = lambda table: {name: it for name, it in table.items() if name not in optional or name in asked}
    there = lambda table: {name: it for name, it in table.items() if registry.has(name, it)}
    kept["dependencies"] = used(manifest.get("dependencies", {}))
    kept["target"] = {}
    for target, table in manifest.get("target", {}).items():
        kept["target"][target] = {key: there(used(it)) for key, it in table.items() if key != "dev-dependencies"}
    if without is not None:
        kept["dev-dependencies"] = {name: it for name, it in there(manifest.get("dev-dependencies", {})).items() if name not in without}
        exists = lambda it: os.path.exists(f"{folder}/{it.get('path', 'tests/' + it['name'] + '.rs')}")
        kept["test"] = [it for it in manifest.get("test", []) if exists(it)]
    manifest["package"].pop("default-run", None)
    kept["package"] = {**manifest["package"], "autobins": False, "autoexamples": False, "autobenches": False, "autotests": without is not None}
    kept.get("lib", {}).pop("crate-type", None)
    kept["workspace"] = {}
    return kept


def inline(value):
    if isinstance(value, dict):
        return "{" + ", ".join(f"{json.dumps(key)} = {inline(it)}" for key, it in value.items()) + "}"
    if isinstance(value, list):
        return "[" + ", ".join(map(inline, value)) + "]"
    return json.dumps(value, ensure_ascii=False)


def copy(package, to, registry, manifest):
    shutil.copytree(package, to, symlinks=True)
    for name in ("examples", "benches", "Cargo.lock", ".cargo-checksum.json"):
        path = os.path.join(to, name)
        if os.path.isdir(path):
            shutil.rmtree(path)
        elif os.path.exists(path):
            os.remove(path)
    with open(f"{to}/Cargo.toml", "w") as it:
        it.write("".join(f"{json.dumps(key)} = {inline(value)}\n" for key, value in manifest.items()))
    os.makedirs(f"{to}/.cargo", exist_ok=True)
    with open(f"{to}/.cargo/config.toml", "w") as it:
        it.write(f'[source.crates-io]\nreplace-with = "here"\n[source.here]\ndirectory = "{registry.folder}"\n')


class Build:
    """What cargo made of a copy: whether there is a library, the programs of its tests, the options of its build
    script, and rustc's messages."""
    def __init__(self, folder, target):
        env = {**os.environ, "CARGO_TARGET_DIR": target, "RUSTFLAGS": "--cap-lints allow", "CARGO_INCREMENTAL": "0", "CARGO_PROFILE_DEV_DEBUG": "0"}
        jobs = os.environ.get("JOBS", "2")
        ran = common.cargo("build", "-q", "-j", jobs, "--message-format=json", "--lib", "--tests",
                           "--keep-going", cwd=folder, env=env)
        self.passed = False
        self.said = ran.stderr
        self.tests, self.options = {}, []
        for line in ran.stdout.split("\n"):
            if line.startswith("{"):
                self.read(json.loads(line), folder)

    def read(self, message, folder):
        of_this = folder + "#" in message.get("package_id", "") or folder + ")" in message.get("package_id", "")
        if message["reason"] == "build-script-executed" and of_this:
            self.options = message["cfgs"]
        elif message["reason"] == "compiler-artifact" and of_this and message.get("executable"):
            self.tests[os.path.relpath(message["target"]["src_path"], folder)] = message["executable"]
        elif message["reason"] == "compiler-artifact" and of_this and "custom-build" not in message["target"]["kind"]:
            self.passed = True
        elif message["reason"] == "compiler-message" and message["message"]["level"].startswith("error"):
            self.said += message["message"]["rendered"]


class Alone:
    """As Build, by rustc alone: a library without dependencies, and its own tests."""
    def __init__(self, folder, target, manifest):
        os.makedirs(target, exist_ok=True)
        self.folder, self.manifest, self.options, self.tests = folder, manifest, [], {}
        package, library = manifest["package"], manifest.get("lib", {})
        self.root = os.path.normpath(library.get("path", "src/lib.rs"))
        name = library.get("name", package["name"]).replace("-", "_")
        kind = "proc-macro" if library.get("proc-macro") else "lib"
        self.passed, self.said = self.compiled(name, ["--crate-type", kind, "--emit=metadata", "-o", f"{target}/{name}.rmeta"])
        if self.passed:
            program = f"{target}/{os.path.basename(folder)}.test"
            has_tests, said = self.compiled(name, ["--test", "-o", program])
            self.said += said
            self.tests = {self.root: program} if has_tests else {}

    def compiled(self, name, words):
        package = self.manifest["package"]
        numbers = dict(zip(("MAJOR", "MINOR", "PATCH"), re.findall(r"\d+", package["version"])))
        env = {**os.environ, **{f"CARGO_PKG_VERSION_{key}": it for key, it in numbers.items()}, "CARGO_PKG_VERSION": package["version"]}
        env.update(CARGO_PKG_NAME=package["name"], CARGO_MANIFEST_DIR=self.folder, CARGO_CRATE_NAME=name, CARGO_PKG_AUTHORS="", CARGO_PKG_DESCRIPTION="")
        words = [*words, self.root]
        for it in self.manifest["features"]:
            words += ["--cfg", f'feature="{it}"']
        ran = common.rustc("--crate-name", name, "--cap-lints", "allow", *words,
                           edition=package.get("edition", "2015"), cwd=self.folder, env=env)
        return ran.returncode == 0, ran.stderr


def limited():
    resource.setrlimit(resource.RLIMIT_CPU, (SECONDS, SECONDS))


def results(folder, build, left_out=()):
    """What each test printed of itself: ok, FAILED or ignored; and how each program ended. One that takes too long says nothing."""
    found = {}
    env = {**os.environ, "CARGO_MANIFEST_DIR": folder, "RUST_TEST_THREADS": "2"}
    how = {"cwd": folder, "env": env, "preexec_fn": limited}
    for name, program in sorted(build.tests.items()):
        if (name, "no end") in left_out:
            found[name, "no end"] = True
            continue
        ran = common.run([program], **how)
        if ran.returncode in (-signal.SIGKILL, -signal.SIGXCPU):
            found[name, "no end"] = True
            continue
        found.update({(name, it[1]): it[2] for it in TEST.finditer(ran.stdout)})
        found[name, "status"] = ran.returncode
    return found


def expanded(program, folder, after, manifest, options, words):
    """Overwrites the library's files by their expansions. Returns the number of expanded calls, the number of errors,
    and the reports."""
    root = os.path.normpath(manifest.get("lib", {}).get("path", "src/lib.rs"))
    command = [program, "--edition", manifest["package"].get("edition", "2015"), "--trace", "--fuel", "10000000", "--max-tokens", "4000000000", *words]
    for option in options:
        command += ["--cfg", option]
    if manifest["features"]:
        command += ["--features", ",".join(manifest["features"])]
    with common.folder() as to:
        try:
            ran = common.run([*command, "--write", to, os.path.join(folder, root)], timeout=600)
        except subprocess.TimeoutExpired:
            return None, 0, "no end in ten minutes"
        said = ran.stderr
        if ran.returncode not in (0, 1):
            return None, 0, said
        for path, _, names in os.walk(to):
            for name in names:
                at = os.path.join(after, os.path.dirname(root), os.path.relpath(path, to), name)
                with open(os.path.join(path, name), "rb") as it, open(at, "wb") as here:
                    here.write(it.read())
    return len(STEP.findall(said)), len(ERROR.findall(said)), said


def first_error(said):
    """The first error of rustc, with its location, in one line."""
    found = re.search(r"^error.*\n(?: *--> .*)?", said, re.M)
    return " ".join(found[0].split()) if found else said.strip()[-160:].replace("\n", " ")


def passed(tests):
    return sum(it == "ok" for it in tests.values())


def is_alone(folder, manifest):
    """Whether the library needs no other library on Linux, and no build script."""
    elsewhere = re.compile(r"windows|wasm|redox|hermit|macos|fuchsia|wasi")
    needs = [manifest["dependencies"], *(it.get("dependencies") for key, it in manifest["target"].items() if not elsewhere.search(key))]
    return not any(needs) and not os.path.exists(f"{folder}/build.rs")


def compared(program, folder, work, registry, words, without, alone, has_externs):
    """A row of the table, and what it counts in."""
    name = os.path.basename(folder)
    with open(f"{folder}/Cargo.toml", "rb") as it:
        whole = tomllib.load(it)
    if alone and not is_alone(folder, reduced(folder, whole, registry, None)):
        return None, []
    for left_out in (without, None):
        manifest = reduced(folder, whole, registry, left_out)
        to = f"{work}/{name}"
        shutil.rmtree(to, ignore_errors=True)
        copy(folder, to, registry, manifest)
        before = Alone(to, f"{work}/target", manifest) if alone else Build(to, f"{work}/target")
        if before.passed or alone:
            break
    if not before.passed:
        return f"| {name} | | | no | | before: {first_error(before.said)[:160]} |", ["packages"]
    counted = ["packages", "build before"]
    tests = results(to, before)
    after = f"{work}/{name}.after"
    shutil.rmtree(after, ignore_errors=True)
    shutil.copytree(to, after, symlinks=True)
    words = words + externs(manifest, registry, "--test" in words) if has_externs else words
    calls, errors, said = expanded(program, to, after, manifest, before.options, words)
    if calls is None:
        return f"| {name} | | | yes, | {passed(tests)} | expandm: {said.strip()[:160]} |", counted
    built = Alone(after, f"{work}/target", manifest) if alone else Build(after, f"{work}/target")
    tests_after = results(after, built, tests)
    with open(f"{work}/{name}.log", "w") as it:
        it.write(f"{said}\n=== before\n{before.said}\n=== after\n{built.said}")
    same = built.passed and tests == tests_after
    counted += ["build after"] * built.passed + ["same tests"] * same + ["calls"] * calls + ["tests"] * passed(tests)
    why = "" if same else first_error(built.said) if not built.passed or len(tests_after) < len(tests) else different(tests, tests_after)
    return f"| {name} | {calls} | {errors} | yes, {'yes' if built.passed else 'no'} | {passed(tests)}, {passed(tests_after)} | {why[:240]} |", counted


def different(tests, after):
    names = [f"{' '.join(it)}: {tests.get(it)}, {after.get(it)}" for it in tests.keys() | after.keys() if tests.get(it) != after.get(it)]
    return f"{len(names)} differ: {'; '.join(sorted(names)[:3])}"


def asked():
    parser = common.arguments(__doc__)
    parser.add_argument("program", metavar="EXPANDM", type=os.path.realpath)
    parser.add_argument("registry", metavar="REGISTRY", type=os.path.realpath)
    parser.add_argument("names", metavar="NAME", nargs="*")
    parser.add_argument("--test", action="store_true",
                        help="expand under `test` too: calls in tests, and none under `not(test)`")
    parser.add_argument("--externs", action="store_true",
                        help="give expandm the libraries that a package depends on, by --extern; "
                             "a package without a `macro_rules!` of its own counts too")
    parser.add_argument("--work", metavar="DIR", type=os.path.realpath,
                        help="keep the copies in DIR (NAME and NAME.after), and what rustc said "
                             "(NAME.log)")
    parser.add_argument("--without", metavar="A,B", default="",
                        help="leave out these dev-dependencies, and the tests that need them")
    parser.add_argument("--alone", action="store_true",
                        help="take only packages without dependencies and build scripts; rustc "
                             "compiles them and their own tests, without Cargo and without the "
                             "folder `tests`")
    return parser.parse_args()


COUNTS = ["packages", "build before", "build after", "same tests", "calls", "tests"]
HEAD = ["Package", "Calls expanded", "Errors reported", "Builds before, after",
        "Tests passed before, after", "What differs"]


def main():
    args = asked()
    registry = Registry(args.registry)
    options = ["--test"] if args.test else []
    without = args.without.split(",") if args.without else []
    counts = dict.fromkeys(COUNTS, 0)
    print(f"| {' | '.join(HEAD)} |\n{'|---' * len(HEAD)}|")
    with common.folder(args.work) as work:
        for name in args.names or sorted(os.listdir(registry.folder)):
            folder = f"{registry.folder}/{name}"
            if not os.path.exists(f"{folder}/Cargo.toml"):
                continue
            if not args.externs and not has_macros(f"{folder}/src"):
                continue
            row, counted = compared(args.program, folder, work, registry, options, without,
                                    args.alone, args.externs)
            if row:
                print(row, flush=True)
            for it in counted:
                counts[it] += 1
    print("; ".join(f"{name}: {count}" for name, count in counts.items()))
    return common.finish(counts["same tests"], counts["build before"] - counts["same tests"])


if __name__ == "__main__":
    sys.exit(main())
