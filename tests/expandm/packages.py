"""Runs without a file, which expand the package of the folder."""
import os
import re
import tempfile

from expandm.writing import HEADER, LIST
from programs import Program

REGISTRY = 'source = "registry+https://github.com/rust-lang/crates.io-index"\n'
# The lock file of `p`, which uses version 1.0.1 of `e`.
LOCK = (
    'version = 4\n[[package]]\nname = "p"\nversion = "0.1.0"\ndependencies = ["e"]\n'
    f'[[package]]\nname = "e"\nversion = "1.0.1"\n{REGISTRY}'
)
SETTINGS = '[source.crates-io]\nreplace-with = "v"\n[source.v]\ndirectory = "v"\n'
ONE = "#[macro_export] macro_rules! m { () => { 1 } }"
# A macro for each feature of a crate.
FEATURED = """\
#[cfg(feature = "a")] #[macro_export] macro_rules! a { () => { "a" } }
#[cfg(not(feature = "a"))] #[macro_export] macro_rules! a { () => { "no a" } }
#[cfg(feature = "b")] #[macro_export] macro_rules! b { () => { "b" } }
#[cfg(not(feature = "b"))] #[macro_export] macro_rules! b { () => { "no b" } }
"""
FEATURES = "[features]\na = []\nb = []\n"
B_BY_DEFAULT = '[features]\ndefault = ["b"]\na = []\nb = []\n'
BOTH = "const A: &str = (d::a!(), d::b!());"
CALL = "const A: u8 = d::m!();"


def package(name, rest="", edition="2021"):
    """The manifest of a package."""
    return f'[package]\nname = "{name}"\nversion = "0.1.0"\nedition = "{edition}"\n{rest}'


def root(rest, text, edition="2021"):
    """The files of the package `p`."""
    return {"Cargo.toml": package("p", rest, edition), "src/lib.rs": text}


def using(how, text, rest="", edition="2021"):
    """The files of the package `p`, in whose manifest `how` says where the dependency `d` is."""
    return root(f"[dependencies]\nd = {{ {how} }}\n{rest}", text, edition)


def library(name, text, rest="", edition="2021"):
    """The files of a library in the folder of its name."""
    return {f"{name}/Cargo.toml": package(name, rest, edition), f"{name}/src/lib.rs": text}


OPTIONAL = 'path = "d", optional = true'
PATH = 'path = "d"'

# Arguments, files, and the output, which has the expansions of rustc.
ROWS = (
    # a path dependency
    ("", {**using(PATH, CALL), **library("d", ONE)}, "const A: u8 = 1;"),
    # The features of a dependency: the features that are asked for, and `default`.
    ("", {**using('path = "d", features = ["a"]', BOTH), **library("d", FEATURED, FEATURES)}, 'const A: &str = ("a", "no b");'),
    ("", {**using(PATH, BOTH), **library("d", FEATURED, B_BY_DEFAULT)}, 'const A: &str = ("no a", "b");'),
    ("", {**using('path = "d", default-features = false', BOTH), **library("d", FEATURED, B_BY_DEFAULT)}, 'const A: &str = ("no a", "no b");'),
    # The features of the package aren't features of a dependency.
    ("--features a", {**using(PATH, 'const A: &str = d::a!(); #[cfg(feature = "a")] const B: &str = d::b!();', "[features]\na = []"),
                      **library("d", FEATURED, FEATURES)},
     'const A: &str = "no a"; #[cfg(feature = "a")] const B: &str = "no b";'),
    # an optional dependency, off and on, with a weak feature of it
    ("", {**using(OPTIONAL, BOTH, '[features]\ndefault = ["d?/a"]'), **library("d", FEATURED, FEATURES)}, BOTH),
    ("--features d", {**using(OPTIONAL, BOTH, '[features]\ndefault = ["d?/a"]'), **library("d", FEATURED, FEATURES)},
     'const A: &str = ("a", "no b");'),
    ("--features on", {**using(OPTIONAL, BOTH, '[features]\non = ["dep:d", "d/b"]'), **library("d", FEATURED, FEATURES)},
     'const A: &str = ("no a", "b");'),
    ("--features d/b", {**using(OPTIONAL, BOTH), **library("d", FEATURED, FEATURES)}, 'const A: &str = ("no a", "b");'),
    ("--all-features", {**using(OPTIONAL, BOTH), **library("d", FEATURED)}, 'const A: &str = ("no a", "no b");'),
    # two packages that ask for features of a third
    ("", {**root('[dependencies]\nd = { path = "d", features = ["a"] }\ne = { path = "e" }', BOTH), **library("d", FEATURED, FEATURES),
          **library("e", "", '[dependencies]\nd = { path = "../d", features = ["b"] }')},
     'const A: &str = ("a", "b");'),
    # a renamed dependency, a library with a name of its own, and a `-` in a name
    ("", {**root('[dependencies]\nother = { path = "d", package = "d" }', "const A: u8 = other::m!();"),
          **library("d", "#[macro_export] macro_rules! m { () => { $crate::N } }")},
     "const A: u8 = ::other::N;"),
    ("", {**root('[dependencies]\nd-e = { path = "d-e" }', "const A: u8 = d_e::m!();"), **library("d-e", ONE)}, "const A: u8 = 1;"),
    ("", {**using(PATH, "const A: u8 = x::m!();"), "d/Cargo.toml": package("d", '[lib]\nname = "x"\npath = "y.rs"'), "d/y.rs": ONE},
     "const A: u8 = 1;"),
    # a dependency of a dependency, whose macro is re-exported
    ("", {**using(PATH, CALL), **library("d", "pub use e::m;", '[dependencies]\ne = { path = "../e" }'), **library("e", ONE)}, "const A: u8 = 1;"),
    # programs, with the package's library
    ("--bin p", {**root("", ONE), "src/main.rs": "fn main() { p::m!() }"}, "fn main() { 1 }"),
    ("--bin q", {**root("", ONE), "src/bin/q.rs": "fn main() { p::m!() }"}, "fn main() { 1 }"),
    ("--bin q", {**root("", ONE), "src/bin/q/main.rs": "fn main() { p::m!() }"}, "fn main() { 1 }"),
    ("--bin r", {**root('[[bin]]\nname = "r"\npath = "r.rs"', ONE), "r.rs": "fn main() { p::m!() }"}, "fn main() { 1 }"),
    ("--lib", {**root("", "const A: u8 = m!();"), "src/main.rs": "fn main() {}"}, "const A: u8 = m!();"),
    ("", {"Cargo.toml": package("p"), "src/main.rs": f"{ONE} fn main() {{ m!() }}"}, f"{ONE} fn main() {{ 1 }}"),
    # a member of a workspace, which inherits its edition and its dependency
    ("-p m", {
        "Cargo.toml": '[workspace]\nmembers = ["c/*"]\n[workspace.package]\nedition = "2021"\n'
                      '[workspace.dependencies]\nd = { path = "d", features = ["a"] }\n',
        "c/m/Cargo.toml": '[package]\nname = "m"\nversion = "0.1.0"\nedition.workspace = true\n'
                          '[dependencies]\nd = { workspace = true, features = ["b"] }\n',
        "c/m/src/lib.rs": BOTH, **library("d", FEATURED, FEATURES)},
     'const A: &str = ("a", "b");'),
    # dependencies for a platform
    ("", {**root('[target."cfg(all(unix, not(windows)))".dependencies]\nd = { path = "d" }', CALL), **library("d", ONE)}, "const A: u8 = 1;"),
    ("--target x86_64-pc-windows-msvc", {**root('[target."cfg(unix)".dependencies]\nd = { path = "d" }', CALL), **library("d", ONE)}, CALL),
    ("", {**root('[target.x86_64-unknown-linux-gnu.dependencies]\nd = { path = "d" }', CALL), **library("d", ONE)}, "const A: u8 = 1;"),
    # dependencies of tests and of build scripts
    ("", {**root('[dev-dependencies]\nd = { path = "d" }', CALL), **library("d", ONE)}, CALL),
    ("", {**root('[build-dependencies]\nd = { path = "d" }', CALL), **library("d", ONE)}, CALL),
    # a folder with packages, in the version of the lock file
    ("", {**root('[dependencies]\ne = "1"', "const A: u8 = e::m!();"), "Cargo.lock": LOCK, ".cargo/config.toml": SETTINGS,
          "v/e-1.0.1/Cargo.toml": '[package]\nname = "e"\nversion = "1.0.1"\n', "v/e-1.0.1/src/lib.rs": ONE,
          "v/e-1.0.1/.cargo-checksum.json": '{"files":{}}', "v/e-1.0.2/.cargo-checksum.json": '{"files":{}}',
          "v/e-1.0.2/Cargo.toml": '[package]\nname = "e"\nversion = "1.0.2"\n', "v/e-1.0.2/src/lib.rs": ""},
     "const A: u8 = 1;"),
    # a manifest that is named
    ("--manifest-path a/Cargo.toml", {"a/Cargo.toml": package("p"), "a/src/lib.rs": f"{ONE} const A: u8 = m!();"}, f"{ONE} const A: u8 = 1;"),
    # a dependency in another edition: `'a'b` is one token before edition 2021
    ("", {**using(PATH, CALL), **library("d", '#[macro_export] macro_rules! m { () => { 1 } ; (x"") => { 2 } }', "", "2018")}, "const A: u8 = 1;"),
    # targets beside the library, as Cargo finds them
    ("--example e", {**root("", ONE), "examples/e.rs": "fn main() { p::m!() }"}, "fn main() { 1 }"),
    ("--example e", {**root("", ONE), "examples/e/main.rs": "fn main() { p::m!() }"}, "fn main() { 1 }"),
    ("--example e", {**root('[[example]]\nname = "e"\npath = "x.rs"', ONE), "x.rs": "fn main() { p::m!() }"}, "fn main() { 1 }"),
    ("--test=t", {**root("", ONE), "tests/t.rs": "#[cfg(test)] fn f() { p::m!() }"}, "#[cfg(test)] fn f() { 1 }"),
    ("--bench b", {**root("", ONE), "benches/b.rs": "#[cfg(test)] fn f() { p::m!() }"}, "#[cfg(test)] fn f() { 1 }"),
    ("--bin q", {**root('[[bin]]\nname = "q"', ONE), "src/bin/q.rs": "fn main() { p::m!() }"}, "fn main() { 1 }"),
    ("", {"Cargo.toml": package("p", '[[bin]]\nname = "q"\npath = "q.rs"'), "q.rs": f"{ONE} fn main() {{ m!() }}"}, f"{ONE} fn main() {{ 1 }}"),
    ("", {"Cargo.toml": package("p", 'default-run = "r"\n'), "src/main.rs": "", "src/bin/r.rs": f"{ONE} fn main() {{ m!() }}"},
     f"{ONE} fn main() {{ 1 }}"),
    # a target that needs a feature
    ("--bin q --features a", {**root('[features]\na = []\n[[bin]]\nname = "q"\nrequired-features = ["a"]', ONE),
                              "src/bin/q.rs": "fn main() { p::m!() }"}, "fn main() { 1 }"),
    # the dependencies of tests: of the library's own tests, of an example, and of the same name as another one
    ("--test", {**root('[dev-dependencies]\nd = { path = "d" }', f"#[cfg(test)] {CALL}"), **library("d", ONE)}, "#[cfg(test)] const A: u8 = 1;"),
    ("--example e", {**root('[dev-dependencies]\nd = { path = "d", features = ["a"] }', ""), **library("d", FEATURED, FEATURES),
                     "examples/e.rs": BOTH}, 'const A: &str = ("a", "no b");'),
    ("--test=t", {**root('[dependencies]\nd = { path = "d", features = ["a"] }\n[dev-dependencies]\nd = { path = "d", features = ["b"] }', ""),
                  **library("d", FEATURED, FEATURES), "tests/t.rs": BOTH}, 'const A: &str = ("a", "b");'),
    ("--lib", {**root('[dependencies]\nd = { path = "d", features = ["a"] }\n[dev-dependencies]\nd = { path = "d", features = ["b"] }', BOTH),
               **library("d", FEATURED, FEATURES)}, 'const A: &str = ("a", "no b");'),
    ("--test=t", {**root('[dependencies]\nd = { path = "d", optional = true, features = ["a"] }\n[dev-dependencies]\nd = { path = "d" }', ""),
                  **library("d", FEATURED, FEATURES), "tests/t.rs": BOTH}, 'const A: &str = ("no a", "no b");'),
    ("--test=t", {**root('[dev-dependencies]\nd = { path = "d" }', ONE), **library("d", "pub use p::m;", '[dependencies]\np = { path = ".." }'),
                  "tests/t.rs": CALL}, "const A: u8 = 1;"),
    # Cargo's settings: the target, and flags for `cfg`
    ("", {**root("", f"{ONE} #[cfg(windows)] const A: u8 = m!();"), ".cargo/config.toml": '[build]\ntarget = "x86_64-pc-windows-msvc"\n'},
     f"{ONE} #[cfg(windows)] const A: u8 = 1;"),
    ("--target x86_64-unknown-linux-gnu",
     {**root("", f"{ONE} #[cfg(windows)] const A: u8 = m!();"), ".cargo/config.toml": '[build]\ntarget = "x86_64-pc-windows-msvc"\n'},
     f"{ONE} #[cfg(windows)] const A: u8 = m!();"),
    ("", {**using(PATH, f"#[cfg(x)] {CALL}"), **library("d", f"#[cfg(x)] {ONE}"), ".cargo/config.toml": '[build]\nrustflags = "--cfg x"\n'},
     "#[cfg(x)] const A: u8 = 1;"),
    ("", {**root("", f"{ONE} #[cfg(x = \"y\")] const A: u8 = m!();"), ".cargo/config.toml": "[build]\nrustflags = ['--cfg=x=\"y\"']\n"},
     f"{ONE} #[cfg(x = \"y\")] const A: u8 = 1;"),
    ("", {**root("", f"{ONE} #[cfg(x)] const A: u8 = m!(); #[cfg(y)] const B: u8 = m!();"),
          ".cargo/config.toml": "[target.'cfg(unix)']\nrustflags = ['--cfg', 'x']\n[build]\nrustflags = ['--cfg', 'y']\n"},
     f"{ONE} #[cfg(x)] const A: u8 = 1; #[cfg(y)] const B: u8 = m!();"),
    # `[patch]`, and the first version of lock files
    ("", {**root('[dependencies]\ne = "1"\n[patch.crates-io]\ne = { path = "e" }', "const A: u8 = e::m!();"),
          "Cargo.lock": LOCK.replace(REGISTRY, ""), "e/Cargo.toml": package("e").replace("0.1.0", "1.0.1"), "e/src/lib.rs": ONE},
     "const A: u8 = 1;"),
    ("", {**root('[dependencies]\ne = "1"\n[patch.crates-io]\nx = { path = "x", package = "e" }', "const A: u8 = e::m!();"),
          "Cargo.lock": LOCK.replace(REGISTRY, ""), "x/Cargo.toml": package("e").replace("0.1.0", "1.0.1"), "x/src/lib.rs": ONE},
     "const A: u8 = 1;"),
    ("", {**root('[dependencies]\ne = "1"', "const A: u8 = e::m!();"), ".cargo/config.toml": SETTINGS,
          "Cargo.lock": '[root]\nname = "p"\nversion = "0.1.0"\ndependencies = ["e 1.0.1 (registry+https://github.com/rust-lang/crates.io-index)"]\n'
                        f'[[package]]\nname = "e"\nversion = "1.0.1"\n{REGISTRY}',
          "v/e/Cargo.toml": '[package]\nname = "e"\nversion = "1.0.1"\n', "v/e/src/lib.rs": ONE, "v/e/.cargo-checksum.json": '{"files":{}}'},
     "const A: u8 = 1;"),
    # members that a pattern and a dependency name
    ("-p m", {"Cargo.toml": '[workspace]\nmembers = ["a*/b"]\n', "ax/b/Cargo.toml": package("m"), "ax/b/src/lib.rs": f"{ONE} const A: u8 = m!();"},
     f"{ONE} const A: u8 = 1;"),
    ("-p m", {"Cargo.toml": '[workspace]\nmembers = ["c/*"]\nexclude = ["c/a"]\n', "c/a/Cargo.toml": "x", "c/b/Cargo.toml": package("m"),
              "c/b/src/lib.rs": f"{ONE} const A: u8 = m!();"}, f"{ONE} const A: u8 = 1;"),
    ("-p d", {**using(PATH, "", "[workspace]"), **library("d", f"{ONE} const A: u8 = m!();")}, f"{ONE} const A: u8 = 1;"),
    # optional dependencies of other platforms and of build scripts are features too
    ("--plan", {**root('[features]\ndefault = ["d/a"]\n[target."cfg(windows)".dependencies]\nd = { path = "d", optional = true }', ""),
                **library("d", "", FEATURES)}, "p 2021 src/lib.rs d,default\n"),
    ("--plan --all-features", {
        **root('[target."cfg(windows)".dependencies]\nd = { path = "d", optional = true }\n[build-dependencies]\n'
               'e = { path = "e", optional = true }', ""), **library("d", ""), **library("e", "")}, "p 2021 src/lib.rs d,e\n"),
    # the plan
    ("--plan", {**root("[lib]\nedition = '2018'", "")}, "p 2018 src/lib.rs\n"),
    ("--plan", {**using('path = "d", features = ["a", "b"]', ""), **library("d", "", FEATURES, "2018")},
     "p 2021 src/lib.rs\nd 2018 d/src/lib.rs a,b\n"),
)

# Two members of a workspace, of which one has a program too.
TWO = {
    "Cargo.toml": '[workspace]\nmembers = ["a", "b"]\nresolver = "2"\n', **library("a", ONE), "a/src/main.rs": "fn main() { a::m!() }",
    **library("b", "const A: u8 = a::m!();", "[features]\nf = []\n[dependencies]\na = { path = \"../a\" }"),
}
MANY = {**root("", ONE), "src/main.rs": "fn main() { p::m!() }", "src/bin/q.rs": "", "src/bin/r/main.rs": "", "examples/e.rs": "",
        "tests/t.rs": "", "tests/u/x.rs": "", "benches/b.rs": ""}

# Arguments, files, and the output for several targets: each root file after its path.
SEVERAL = (
    ("--workspace", TWO, f"// a/src/lib.rs\n{ONE}\n// a/src/main.rs\nfn main() {{ 1 }}\n// b/src/lib.rs\nconst A: u8 = 1;"),
    ("--workspace --lib", TWO, f"// a/src/lib.rs\n{ONE}\n// b/src/lib.rs\nconst A: u8 = 1;"),
    ("--workspace --bin a", TWO, "fn main() { 1 }"),
    ("--workspace --features f --plan --lib", TWO, "// a/src/lib.rs\na 2021 a/src/lib.rs\n\n// b/src/lib.rs\nb 2021 b/src/lib.rs f\na 2021 a/src/lib.rs\n"),
    ("--bins", {**root("", ""), "src/bin/q.rs": f"{ONE} fn main() {{ m!() }}"}, f"{ONE} fn main() {{ 1 }}"),
    ("--lib --bin p", {**root("", ONE), "src/main.rs": "fn main() { p::m!() }"}, f"// src/lib.rs\n{ONE}\n// src/main.rs\nfn main() {{ 1 }}"),
    # which files are targets
    ("--all-targets --plan", MANY, "\n".join(
        f"// {path}\n{name} 2021 {path}\n" + ("" if path == "src/lib.rs" else "p 2021 src/lib.rs\n")
        for name, path in (("p", "src/lib.rs"), ("p", "src/main.rs"), ("q", "src/bin/q.rs"), ("r", "src/bin/r/main.rs"),
                           ("e", "examples/e.rs"), ("t", "tests/t.rs"), ("b", "benches/b.rs")))),
    ("--bins --plan", {"Cargo.toml": package("p", "autobins = false\n[[bin]]\nname = \"q\""), "src/lib.rs": "", "src/main.rs": "", "src/bin/q.rs": ""},
     "q 2021 src/bin/q.rs\np 2021 src/lib.rs\n"),
    # before edition 2018, a declared target switches the search off
    ("--tests --plan", {"Cargo.toml": package("p", "[[test]]\nname = \"t\"", "2015"), "src/lib.rs": "", "tests/t.rs": "", "tests/u.rs": ""},
     "t 2015 tests/t.rs\np 2015 src/lib.rs\n"),
    # a target without its feature is left out
    ("--bins --plan", {**root('[features]\na = []\n[[bin]]\nname = "q"\nrequired-features = ["a"]', ""), "src/bin/q.rs": "", "src/bin/r.rs": ""},
     "r 2021 src/bin/r.rs\np 2021 src/lib.rs\n"),
)

# Files, and the output, with the variables CARGO_HOME and RUSTFLAGS set.
AT = "0123456789abcdef0123456789abcdef01234567"
GIT = f'source = "git+https://a.org/Repo.git?branch=x#{AT}"\n'
CHECKOUT = "home/git/checkouts/repo-0123456789abcdef/0123456"
BY_GIT = {
    **root('[dependencies]\ne = { git = "https://a.org/Repo.git", branch = "x" }', "const A: u8 = e::m!();"),
    "Cargo.lock": LOCK.replace(REGISTRY, GIT),
}
IN_HOME = (
    # a git repository: its own package, a member of its workspace, and a package in a folder of it
    ({**BY_GIT, f"{CHECKOUT}/Cargo.toml": package("e").replace("0.1.0", "1.0.1"), f"{CHECKOUT}/src/lib.rs": ONE}, "const A: u8 = 1;"),
    ({**BY_GIT, f"{CHECKOUT}/Cargo.toml": '[workspace]\nmembers = ["c/*"]\n[workspace.package]\nversion = "1.0.1"',
      f"{CHECKOUT}/c/d/Cargo.toml": '[package]\nname = "e"\nversion.workspace = true\nedition = "2021"\n', f"{CHECKOUT}/c/d/src/lib.rs": ONE},
     "const A: u8 = 1;"),
    ({**BY_GIT, f"{CHECKOUT}/x/y/Cargo.toml": package("e").replace("0.1.0", "1.0.1"), f"{CHECKOUT}/x/y/src/lib.rs": ONE}, "const A: u8 = 1;"),
    # a repository that `cargo vendor` has copied
    ({**BY_GIT, ".cargo/config.toml": '[source."git+x"]\ngit = "https://a.org/Repo.git"\nreplace-with = "v"\n[source.v]\ndirectory = "v"\n',
      "v/e/Cargo.toml": package("e").replace("0.1.0", "1.0.1"), "v/e/src/lib.rs": ONE}, "const A: u8 = 1;"),
    # a package that Cargo has unpacked, as it does for a local registry too
    ({**root('[dependencies]\ne = "1"', "const A: u8 = e::m!();"), "Cargo.lock": LOCK,
      ".cargo/config.toml": '[source.crates-io]\nreplace-with = "v"\n[source.v]\nlocal-registry = "v"\n',
      "home/registry/src/v-0123456789abcdef/e-1.0.1/Cargo.toml": package("e").replace("0.1.0", "1.0.1"),
      "home/registry/src/v-0123456789abcdef/e-1.0.1/src/lib.rs": ONE}, "const A: u8 = 1;"),
    # the settings of Cargo's folder, and the variable, which counts in place of the settings
    ({**root("", f"{ONE} #[cfg(windows)] const A: u8 = m!();"), "home/config.toml": '[build]\ntarget = "x86_64-pc-windows-msvc"\n'},
     f"{ONE} #[cfg(windows)] const A: u8 = 1;"),
    ({**root("", f"{ONE} #[cfg(x)] const A: u8 = m!(); #[cfg(z)] const B: u8 = m!();"), ".cargo/config.toml": '[build]\nrustflags = ["--cfg", "x"]\n'},
     f"{ONE} #[cfg(x)] const A: u8 = m!(); #[cfg(z)] const B: u8 = 1;"),
)

# Arguments, files, and the files that `--write out` writes, without the lists of written files.
WRITTEN = (
    ("", MANY, {"out/src/lib.rs": ONE}),
    ("--bin r", {**MANY, "src/bin/r/main.rs": "mod s;", "src/bin/r/s.rs": "const A: u8 = p::m!();"},
     {"out/src/bin/r/main.rs": "mod s;", "out/src/bin/r/s.rs": "const A: u8 = 1;"}),
    ("--all-targets", MANY, {
        "out/src/lib.rs": ONE, "out/src/main.rs": "fn main() { 1 }", "out/src/bin/q.rs": "", "out/src/bin/r/main.rs": "", "out/examples/e.rs": "",
        "out/tests/t.rs": "", "out/benches/b.rs": ""}),
)

# Arguments, files, and the notes.
NOTES = (
    ("", {**using(PATH, ""), **library("d", "", "[lib]\nproc-macro = true")}, "note: Cargo.toml: procedural macros that are not expanded: 1\n"),
    ("--release", root("", ""), "note: with `--release`, `debug_assertions` stays set\n"),
    ("", root('[dev-dependencies]\nd = "1"', "", "2018"),
     "note: Cargo.toml: Cargo's resolver 1 may enable more features: for tests, build scripts, other platforms\n"),
    ("", root('[dev-dependencies]\nd = "1"', ""), ""),
    ("", {**root("", ""), "build.rs": ""}, "note: Cargo.toml: build scripts that are not run, so `cfg`s that they set are not set: 1\n"),
    ("", {**root('[dependencies]\ne = { path = "d", package = "d" }\nd = { path = "e", package = "e" }', ""), **library("d", ""),
          **library("e", "", '[dependencies]\nd = { path = "../d" }')},
     "note: package `e` names the crate `e` `d`, which isn't followed\n"),
    ("", {**using(PATH, ""), **library("d", "macro_rules! m { ($p: pat) => {} }", "", "2018")},
     "note: crate `d` has another edition: its `pat` and `expr` are parsed as in the package\n"),
    ("", {**using(PATH, ""), **library("d", "macro_rules! m { ($p:path, $q:pat_param) => {} }", "", "2018")}, ""),
    ("", {**using(PATH, "", "", "2024"), **library("d", "macro_rules! m { ($e:expr) => {} }")},
     "note: crate `d` has another edition: its `pat` and `expr` are parsed as in the package\n"),
)

# Arguments, files, and the error.
ERRORS = (
    ("", {}, "no FILE.rs is named, and there is no Cargo.toml in this folder or above it"),
    ("--lib a.rs", {"a.rs": ""}, "'--lib' is for a package, and a file is named"),
    ("-p a a.rs", {"a.rs": ""}, "'--package' is for a package, and a file is named"),
    ("--edition 2021", {}, "'--edition' is for files: the edition of a package is in its Cargo.toml"),
    ("", {"Cargo.toml": "[package]\nname = \n"}, 
     "Cargo.toml:2:8: invalid value, expected a string, number, boolean, date-time, array or inline table"),
    ("", {"Cargo.toml": "[workspace]\nmembers = []\n"},
     "Cargo.toml:2:1: the manifest is of a workspace; choose a package with `--package`, or take `--workspace`"),
    ("-p x", {"Cargo.toml": "[workspace]\nmembers = []\n"}, "Cargo.toml:2:1: the workspace has no package `x`"),
    ("-p x", TWO, "Cargo.toml:2:1: the workspace has no package `x`; it has `a`, `b`"),
    ("", using(PATH, ""), "Cargo.toml:6:1: there is no file `{}/d/Cargo.toml`"),
    ("", using('git = "https://a"', ""), "Cargo.toml:6:1: there is no Cargo.lock; run `cargo generate-lockfile`"),
    ("", {**root('[dependencies]\ne = { git = "https://a.org/x" }', ""), "Cargo.lock": LOCK.replace(REGISTRY, 'source = "git+https://a.org/x#0123456"\n')},
     "Cargo.toml:6:1: `e` 1.0.1 from git isn't on this machine; run `cargo fetch`"),
    # a cycle
    ("", {**using(PATH, ""), **library("d", "", '[dependencies]\np = { path = ".." }')},
     "Cargo.toml:6:1: `p` depends on itself through `d`; remove a dependency of the cycle"),
    # targets
    ("--bin x", {"Cargo.toml": package("p"), "src/main.rs": "", "src/bin/q.rs": ""}, "Cargo.toml:1:1: package `p` has no program `x`; it has `p`, `q`"),
    ("--example x", root("", ""), "Cargo.toml:1:1: package `p` has no example `x`"),
    ("--test=x", root("", ""), "Cargo.toml:1:1: package `p` has no test `x`"),
    ("--tests", root("", ""), "Cargo.toml:2:1: there is no target of the kinds and names that are asked for"),
    ("--lib", {"Cargo.toml": package("p"), "src/main.rs": ""}, "Cargo.toml:2:1: package `p` has no library"),
    ("", {"Cargo.toml": package("p")}, "Cargo.toml:2:1: package `p` has no library and no program"),
    ("--bin q", root('[[bin]]\nname = "q"', ""),
     "Cargo.toml:6:1: there is no file of the program `q`: `src/bin/q.rs` or `src/bin/q/main.rs`"),
    ("--bin q", {**root('[features]\na = []\n[[bin]]\nname = "q"\nrequired-features = ["a"]', ""), "src/bin/q.rs": ""},
     "Cargo.toml:9:1: `q` needs the feature `a`; enable it by `--features a`"),
    ("--test=t a.rs", {"a.rs": ""}, "'--test=<NAME>' is for a package, and a file is named"),
    ("--workspace --bin x", TWO, "Cargo.toml:1:1: there is no target of the kinds and names that are asked for"),
    ("--workspace --html p.html", TWO, "`--html` shows one target, and several are chosen"),
    ("--workspace --features x", TWO, "Cargo.toml:2:1: no package of the workspace has the feature `x`"),
    # settings and lock files
    ("", {**root("", ""), ".cargo/config.toml": '[build]\ntarget = "x"\n'},
     ".cargo/config.toml:2:1: the target `x` isn't known; name another by `--target`"),
    ("", {**root('[dependencies]\ne = "1"', ""), "Cargo.lock": "version = 5\n"},
     "Cargo.lock:1:1: this version of the lock file isn't known; the versions 1 to 4 are"),
    ("", {**root('[dependencies]\ne = "1"', ""), "Cargo.lock": LOCK.replace(REGISTRY, "")},
     "Cargo.toml:6:1: Cargo.lock has no source of `e` 1.0.1, nor has `[patch]` a path; run `cargo update`"),
    ("", root('[dependencies]\ne = "1"', ""), "Cargo.toml:6:1: there is no Cargo.lock; run `cargo generate-lockfile`"),
    ("--features x", root("", ""), "Cargo.toml:1:1: package `p` has no feature `x`"),
    ("--bin x", root("", ""), "Cargo.toml:1:1: package `p` has no program `x`"),
    ("", {**root('[dependencies]\ne = "2"', ""), "Cargo.lock": LOCK, ".cargo/config.toml": SETTINGS},
     "Cargo.toml:6:1: Cargo.lock has no version of `e` for it; run `cargo generate-lockfile`"),
    ("", {**root('[dependencies]\ne = "1"', ""), "Cargo.lock": LOCK, ".cargo/config.toml": SETTINGS},
     "Cargo.toml:6:1: `e` 1.0.1 isn't on this machine; run `cargo fetch`"),
    ("", root('[replace]\n"e:1.0.0" = { path = "e" }', ""), "Cargo.toml:5:1: the table `[replace]` isn't supported; write `[patch]` for it"),
)


def lists(written):
    """The list in each folder of files that were written."""
    folders = {}
    for path in sorted(written):
        folder, name = path.rsplit("/", 1)
        folders.setdefault(folder, []).append(f"{name}\n")
    return {f"{folder}/{LIST}": HEADER + "".join(names) for folder, names in folders.items()}


def by_cargo(program, words, files):
    """A run as Cargo starts it: a program `cargo-expandm`, with the first argument `expandm`."""
    with tempfile.TemporaryDirectory() as folder:
        path = f"{folder}/cargo-expandm"
        os.symlink(program.path, path)
        return Program(path).run(["expandm", *words], files)


def set_variables():
    """Sets the variables of the rows IN_HOME, in the new process."""
    os.environ["CARGO_HOME"] = "home"
    os.environ["RUSTFLAGS"] = "--cfg z"


def test(program):
    ran = by_cargo(program, ["--lib"], root("", f"{ONE} const A: u8 = m!();"))
    program.check("packages.by_cargo", ["--lib"], (ran.status, ran.out, ran.err), (0, f"{ONE} const A: u8 = 1;", ""))
    for row in ROWS:
        words, files, want = row
        ran = program.run(words.split(), files)
        program.check("packages.ROWS", row, (ran.status, ran.out, ran.err), (0, want, ""))
    for row in SEVERAL:
        words, files, want = row
        ran = program.run(words.split(), files)
        program.check("packages.SEVERAL", row, (ran.status, ran.out, ran.err), (0, want, ""))
    for row in IN_HOME:
        files, want = row
        ran = program.run([], files, before=set_variables)
        program.check("packages.IN_HOME", row, (ran.status, ran.out, ran.err), (0, want, ""))
    for row in WRITTEN:
        words, files, want = row
        ran = program.run([*words.split(), "--write", "out"], files)
        program.check("packages.WRITTEN", row, (ran.status, ran.out, ran.err, ran.files), (0, "", "", {**files, **want, **lists(want)}))
    for row in NOTES:
        words, files, want = row
        ran = program.run(words.split(), files)
        program.check("packages.NOTES", row, (ran.status, ran.out, ran.err), (0, "", want))
    for row in ERRORS:
        words, files, want = row
        ran = program.run(words.split(), files)
        error = re.sub(r"/tmp/[^/`]*", "{}", ran.err)
        program.check("packages.ERRORS", row, (ran.status, ran.out, error), (2, "", f"error: {want}\n"))
