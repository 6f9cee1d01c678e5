#!/usr/bin/env python3
"""Compares the time and memory of `expandm` on whole crates with those of `cargo rustc --
-Zunpretty=expanded`.

REGISTRY is a folder of packages, such as /usr/share/cargo/registry of Debian's librust-*-dev;
NAMEs choose some of them by the names of their folders. A package counts if it has a library with
a `macro_rules!`. Cargo builds a copy of it once, as for tools/rustc/crates.py, so that its
dependencies exist. Then both programs expand the library with all its modules, under the same
features, five times. The script prints the least time by the clock, and the least of the peaks of
memory. For cargo, the peak of the largest process that it starts counts.

At the end come crates of n files that the script makes up. Each file has a macro and a hundred
calls of it. So time and memory should grow as n does.
"""
import os
import shutil
import subprocess
import sys
import time
import tomllib

sys.path.insert(0, os.path.dirname(os.path.dirname(os.path.abspath(__file__))))
import common  # noqa: E402

sys.path.insert(0, f"{common.TOOLS}/rustc")
import crates  # noqa: E402

TIMES = 5
ENV = {**common.NIGHTLY, "RUSTFLAGS": "--cap-lints allow", "CARGO_INCREMENTAL": "0",
       "CARGO_PROFILE_DEV_DEBUG": "0"}
MADE_UP = (50, 100, 200, 400, 800)
# No package reaches these limits.
LIMITS = ("--fuel", "10000000", "--max-tokens", "4000000000")


def timed(command, folder, env, out):
    """The seconds of the clock that a run takes, the bytes that it and what it starts hold at the most, and its status."""
    with open(out, "wb") as it:
        begin = time.perf_counter()
        ran = subprocess.Popen(command, cwd=folder, env=env, stdout=it, stderr=subprocess.DEVNULL)
        _, status, used = os.wait4(ran.pid, 0)
        ran.returncode = os.waitstatus_to_exitcode(status)
        return time.perf_counter() - begin, used.ru_maxrss * 1024, ran.returncode


def least(command, folder, env, out, before=lambda: None):
    """The least time and memory of some runs, or None if one fails."""
    runs = []
    for _ in range(TIMES):
        before()
        seconds, held, status = timed(command, folder, env, out)
        if status not in (0, 1) or status and command[0] == "cargo":
            return None
        runs.append((seconds, held))
    return min(it[0] for it in runs), min(it[1] for it in runs)


def emptied(folder):
    shutil.rmtree(folder, ignore_errors=True)
    os.makedirs(folder)


def sizes(folder):
    """The files of Rust below a folder, and their bytes."""
    found = [os.path.join(path, name) for path, _, names in os.walk(folder) for name in names if name.endswith(".rs")]
    return len(found), sum(map(os.path.getsize, found))


def with_expandm(program, folder, manifest, options, work):
    root = os.path.normpath(manifest.get("lib", {}).get("path", "src/lib.rs"))
    command = [program, "--edition", manifest["package"].get("edition", "2015"), *LIMITS]
    for option in options:
        command += ["--cfg", option]
    if manifest["features"]:
        command += ["--features", ",".join(manifest["features"])]
    to = f"{work}/written"
    return least([*command, "--write", to, os.path.join(folder, root)], folder, os.environ, "/dev/null", lambda: emptied(to))


def with_cargo(folder, manifest, work):
    root = os.path.join(folder, manifest.get("lib", {}).get("path", "src/lib.rs"))
    command = ["cargo", "rustc", "--offline", "-q", "--lib", "--", "-Zunpretty=expanded"]
    return least(command, folder, {**ENV, "CARGO_TARGET_DIR": f"{work}/target"}, f"{work}/unpretty", lambda: os.utime(root))


def measured(program, package, work, registry):
    """Files, bytes, and what both programs took; or None where the library isn't built."""
    with open(f"{package}/Cargo.toml", "rb") as it:
        manifest = crates.reduced(package, tomllib.load(it), registry, None)
    folder = f"{work}/{os.path.basename(package)}"
    shutil.rmtree(folder, ignore_errors=True)
    crates.copy(package, folder, registry, manifest)
    build = crates.Build(folder, f"{work}/target")
    if not build.passed:
        return None
    root = os.path.dirname(os.path.join(folder, manifest.get("lib", {}).get("path", "src/lib.rs")))
    return sizes(root) + (with_expandm(program, folder, manifest, build.options, work), with_cargo(folder, manifest, work))


def line(name, files, size, ours, theirs):
    beside = f"{theirs[0] * 1e3:,.0f} ms, {theirs[1] / 1e6:,.0f} MB | {theirs[0] / ours[0]:,.0f}" if theirs else " | "
    return f"| {name} | {files:,} | {size / 1e3:,.0f} KB | {ours[0] * 1e3:,.1f} ms, {ours[1] / 1e6:,.1f} MB | {size / ours[0] / 1e6:,.1f} | {beside} |"


def whole(program, registry, names, work):
    all_files, all_bytes, ours, theirs, most = 0, 0, 0, 0, [0, 0]
    for name in names or sorted(os.listdir(registry.folder)):
        package = f"{registry.folder}/{name}"
        if not os.path.exists(f"{package}/Cargo.toml") or not crates.has_macros(f"{package}/src"):
            continue
        found = measured(program, package, work, registry)
        if not found or not found[2] or not found[3]:
            print(f"| {name} | not measured: it isn't built, or a program fails | | | | | |", flush=True)
            continue
        print(line(name, *found), flush=True)
        all_files, all_bytes = all_files + found[0], all_bytes + found[1]
        ours, theirs = ours + found[2][0], theirs + found[3][0]
        most = [max(most[0], found[2][1]), max(most[1], found[3][1])]
    print(line("all", all_files, all_bytes, (ours, most[0]), (theirs, most[1])) if ours else "none", flush=True)


def made_up(folder, n):
    emptied(folder)
    common.write(f"{folder}/lib.rs", "".join(f"mod m{i};\n" for i in range(n)))
    for i in range(n):
        calls = "".join(f"pub fn f{j}(x: u32) -> u32 {{ m!(x, {j} + {i}) }}\n" for j in range(100))
        text = "macro_rules! m { ($a:expr, $b:expr) => { $a * $b + 1 }; }\n" + calls
        common.write(f"{folder}/m{i}.rs", text)


HEAD = ["Crate", "Files", "Bytes", "`expandm`, most memory", "MB a second",
        "`cargo rustc`, most memory", "Times as long"]


def main():
    parser = common.arguments(__doc__)
    parser.add_argument("program", metavar="EXPANDM", type=os.path.realpath)
    parser.add_argument("registry", metavar="REGISTRY", type=os.path.realpath)
    parser.add_argument("names", metavar="NAME", nargs="*")
    args = parser.parse_args()
    with common.folder() as work:
        print(f"| {' | '.join(HEAD)} |\n{'|---' * len(HEAD)}|")
        whole(args.program, crates.Registry(args.registry), args.names, work)
        for n in MADE_UP:
            made_up(f"{work}/made", n)
            command = [args.program, *LIMITS, "--write", f"{work}/written"]
            command.append(f"{work}/made/lib.rs")
            ours = least(command, work, os.environ, "/dev/null", lambda: emptied(f"{work}/written"))
            print(line(f"{n} files", *sizes(f"{work}/made"), ours, None), flush=True)


if __name__ == "__main__":
    main()
