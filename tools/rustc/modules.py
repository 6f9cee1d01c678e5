#!/usr/bin/env python3
"""Compares small crates before and after `expandm --write`, by rustc: each must do the same.
Their modules are in files.

`expandm` expands each crate from its main.rs. rustc compiles the crate before and after, and the
script runs both programs. The macros of a crate are called x1, x2 and so on; `expandm` must leave
no call of them, except for those that the crate's row names. The script prints each crate that
differs, with the reason, and then what `expandm` reported.
"""
import os
import re
import sys

sys.path.insert(0, os.path.dirname(os.path.dirname(os.path.abspath(__file__))))
import common  # noqa: E402

M1 = "macro_rules! x1 { () => { 1 } }\n"

# By name: the files of a crate, each of which begins with `// PATH`, and how many calls of its macros aren't expanded.
CRATES = {
    "beside": ("// main.rs\nmod a;\nfn main() { println!(\"{}\", a::f()); }\n// a.rs\nmacro_rules! x1 { ($e:expr) => { $e * 2 } }\npub fn f() -> u8 { x1!(2 + 1) }", 0),
    "nested": ("// main.rs\nmod a;\nfn main() { println!(\"{}\", a::f()); }\n// a/mod.rs\nmacro_rules! x1 { () => { 3 } }\npub fn f() -> u8 { x1!() }", 0),
    "before": (f"// main.rs\n{M1}mod a;\nfn main() {{ println!(\"{{}}\", a::f() + x1!()); }}\n// a.rs\npub fn f() -> u8 {{ x1!() + 1 }}", 0),
    "macro_use": (f"// main.rs\n#[macro_use]\nmod a;\nmod b;\nfn main() {{ println!(\"{{}}\", b::f() + x1!()); }}\n// a.rs\n{M1}\n// b.rs\npub fn f() -> u8 {{ x1!() + 1 }}", 0),
    "macro_use_deep": (f"// main.rs\n#[macro_use]\nmod a;\nfn main() {{ println!(\"{{}}\", x1!()); }}\n// a.rs\n#[macro_use]\nmod b;\npub fn f() {{ let _ = x1!(); }}\n// a/b.rs\n{M1}", 0),
    "shadowed": (f"// main.rs\n{M1}mod a;\nfn main() {{ println!(\"{{}} {{}}\", a::f(), x1!()); }}\n// a.rs\nmacro_rules! x1 {{ () => {{ 2 }} }}\npub fn f() -> u8 {{ x1!() }}", 0),
    "redefined": (f"// main.rs\n{M1}mod a;\nmacro_rules! x1 {{ () => {{ 2 }} }}\nmod b;\nfn main() {{ println!(\"{{}} {{}}\", a::f(), b::f()); }}\n// a.rs\npub fn f() -> u8 {{ x1!() }}\n// b.rs\npub fn f() -> u8 {{ x1!() }}", 0),
    "exported": (f"// main.rs\nmod a;\nmod b;\nfn main() {{ println!(\"{{}} {{}}\", crate::x1!(), b::f()); }}\n// a.rs\n#[macro_export]\n{M1}\n// b.rs\nuse crate::x1;\npub fn f() -> u8 {{ x1!() }}", 0),
    "used": (f"// main.rs\nmod b;\nmod a;\nfn main() {{ println!(\"{{}} {{}}\", a::x1!(), b::f()); }}\n// a.rs\n{M1}pub(crate) use x1;\n// b.rs\nuse crate::a::x1;\npub fn f() -> u8 {{ x1!() }}", 0),
    "dollar_crate": ("// main.rs\n#[macro_use]\nmod a;\nmod b;\nfn main() { println!(\"{}\", b::f()); }\n// a.rs\npub fn g() -> u8 { 5 }\nmacro_rules! x1 { () => { $crate::a::g() } }\n// b.rs\npub fn f() -> u8 { x1!() }", 0),
    "path": (f"// main.rs\n{M1}#[path = \"x/y.rs\"]\nmod a;\nfn main() {{ println!(\"{{}}\", a::c::f()); }}\n// x/y.rs\npub mod c;\n// x/c.rs\npub fn f() -> u8 {{ x1!() }}", 0),
    "inline": (f"// main.rs\n{M1}mod a {{ pub mod b; }}\nmod c;\nfn main() {{ println!(\"{{}} {{}}\", a::b::f(), c::d::e::f()); }}\n// a/b.rs\npub fn f() -> u8 {{ x1!() }}\n// c.rs\npub mod d {{ pub mod e; }}\n// c/d/e.rs\npub fn f() -> u8 {{ x1!() + 1 }}", 0),
    "inline_path": (f"// main.rs\n{M1}#[path = \"w\"] mod a {{ pub mod b; #[path = \"v.rs\"] pub mod d; }}\nfn main() {{ println!(\"{{}} {{}}\", a::b::f(), a::d::f()); }}\n// w/b.rs\npub fn f() -> u8 {{ x1!() }}\n// w/v.rs\npub fn f() -> u8 {{ x1!() + 1 }}", 0),
    "cfg": (f"// main.rs\n{M1}#[cfg(unix)] mod a;\n#[cfg(windows)] #[path = \"w.rs\"] mod a;\nfn main() {{ println!(\"{{}}\", a::f()); }}\n// a.rs\npub fn f() -> u8 {{ x1!() }}\n// w.rs\npub fn f() -> u8 {{ x1!() + 1 }}",1),
    "cfg_off": ("// main.rs\n#[cfg(windows)] #[macro_use] mod a;\n#[cfg(not(windows))] #[macro_use] mod b;\nfn main() { println!(\"{}\", x1!()); }\n// a.rs\nmacro_rules! x1 { () => { 7 } }\n// b.rs\nmacro_rules! x1 { () => { 8 } }", 0),
    "inner_cfg": (f"// main.rs\n{M1}mod a;\nmod b;\nfn main() {{ println!(\"{{}}\", b::f()); }}\n// a.rs\n#![cfg(windows)]\npub fn f() -> u8 {{ x1!() }}\n// b.rs\n#![allow(dead_code)]\npub fn f() -> u8 {{ x1!() }}\n", 1),
    "defines": ("// main.rs\n#[macro_use]\nmod a;\nx1!(x2, 4);\nmod b;\nfn main() { println!(\"{}\", b::f()); }\n// a.rs\nmacro_rules! x1 { ($n:ident, $e:expr) => { macro_rules! $n { () => { $e } } } }\n// b.rs\npub fn f() -> u8 { x2!() }", 0),
    "items": ("// main.rs\n#[macro_use]\nmod a;\nmod b;\nfn main() { println!(\"{} {}\", b::one(), b::two()); }\n// a.rs\nmacro_rules! x1 { ($($n:ident $e:expr),*) => { $(pub fn $n() -> u8 { x2!($e) })* } }\nmacro_rules! x2 { ($e:expr) => { $e + 1 } }\n// b.rs\nx1! { one 1, two 2 }", 0),
    "raw": (f"// main.rs\n{M1}mod r#fn;\nfn main() {{ println!(\"{{}}\", r#fn::f()); }}\n// fn.rs\npub fn f() -> u8 {{ x1!() }}", 0),
    "twice": ("// main.rs\n#[macro_use] mod m;\n#[path = \"c.rs\"] mod a;\n#[path = \"c.rs\"] mod b;\nfn main() { println!(\"{} {}\", a::f(), b::f()); }\n// m.rs\nmacro_rules! x1 { ($e:expr) => { $e - 1 } }\n// c.rs\npub fn f() -> u8 { x1!(9) }", 0),
    "returns": (f"// main.rs\n{M1}mod a;\r\nfn main() {{ println!(\"{{}}\", a::f()); }}\r\n// a.rs\npub fn f() -> u8 {{\r\n    x1!() // x1!()\r\n}}\r\n", 1),
    "standard": ("// main.rs\n#[macro_use] mod a;\nmod b;\nfn main() { println!(\"{} {:?}\", x1!(), b::f()); }\n// a.rs\nmacro_rules! x1 { () => { 6u8 } }\n// b.rs\npub fn f() -> Vec<u8> { vec![x1!(), x1!()] }", 0),
    "own_in_module": ("// main.rs\nmod a;\nfn main() { println!(\"{:?} {}\", vec![1u8, 2], a::f()); }\n// a.rs\nmacro_rules! vec { ($($t:tt)*) => { 7 } }\npub fn f() -> u8 { vec![1] }", 0),
    "by_another_path": ("// main.rs\nmacro_rules! vec { ($($e:expr),*) => { std::vec![$($e + 1),*] } }\nmod a;\nfn main() { println!(\"{:?} {:?}\", vec![1u8], a::f()); }\n// a.rs\npub fn f() -> Vec<u8> { ::std::vec![5] }", 0),
    "used_in_braces": (f"// main.rs\nmod a;\nfn main() {{ println!(\"{{}} {{}}\", a::x1!(), self::a::x2!()); }}\n// a.rs\n{M1}macro_rules! x2 {{ () => {{ 2 }} }}\npub(crate) use {{x1 as x3, x1, x2}};\n", 0),
    "cfg_path": (f"// main.rs\n{M1}#[cfg_attr(windows, path = \"w.rs\")]\n#[cfg_attr(unix, allow(dead_code), path = \"u.rs\")]\n#[path = \"a.rs\"]\nmod a;\nfn main() {{ println!(\"{{}}\", a::f()); }}\n// u.rs\npub fn f() -> u8 {{ x1!() + 1 }}\n// w.rs\npub fn f() -> u8 {{ x1!() + 2 }}\n// a.rs\npub fn f() -> u8 {{ x1!() + 3 }}", 2),
    "cfg_no_path": (f"// main.rs\n{M1}#[cfg_attr(windows, path = \"w.rs\")]\nmod a;\nfn main() {{ println!(\"{{}}\", a::f()); }}\n// w.rs\npub fn f() -> u8 {{ x1!() + 2 }}\n// a.rs\npub fn f() -> u8 {{ x1!() + 3 }}", 1),
    "include": (f"// main.rs\ninclude!(\"b.rs\");\nfn main() {{ println!(\"{{}} {{}}\", f(), x1!()); }}\n// b.rs\n{M1}fn f() -> u8 {{ x1!() + 1 }}", 0),
    "include_after": (f"// main.rs\n{M1}#[allow(dead_code)]\ninclude! {{ r\"x/b.rs\" }}\nfn main() {{ println!(\"{{}} {{}}\", f(), x2!()); }}\n// x/b.rs\nfn f() -> u8 {{ x1!() + 1 }}\nmacro_rules! x2 {{ () => {{ x1!() + 4 }} }}\n", 0),
    "include_mod": ("// main.rs\nmod a;\nfn main() { println!(\"{} {}\", a::f(), a::q::g()); }\n// a.rs\ninclude!(\"x/b.rs\");\npub fn f() -> u8 { x1!() }\n// x/b.rs\nmacro_rules! x1 { () => { 3 } }\npub mod q;\n// x/q.rs\npub fn g() -> u8 { x1!() * 2 }", 0),
    "include_inline": (f"// main.rs\n{M1}mod a {{ include!(\"b.rs\"); }}\nfn main() {{ println!(\"{{}}\", a::f()); }}\n// b.rs\npub fn f() -> u8 {{ x1!() }}", 0),
    "include_twice": ("// main.rs\ninclude!(\"m.rs\");\nmod a { include!(\"c.rs\"); }\nmod b { include!(\"c.rs\"); }\nfn main() { println!(\"{} {}\", a::f(), b::f()); }\n// m.rs\nmacro_rules! x1 { ($e:expr) => { $e - 1 } }\n// c.rs\npub fn f() -> u8 { x1!(9) }", 0),
    "include_value": (f"// main.rs\n{M1}const A: u8 = include!(\"b.rs\");\nfn main() {{ println!(\"{{}}\", A + x1!()); }}\n// b.rs\n{{ x1!() + 1 }}", 1),
    "doc": (f"// main.rs\n//! A crate.\n{M1}/// Says.\nmod a;\nfn main() {{ println!(\"{{}}\", a::f()); }}\n// a.rs\n//! Says more.\n\n/// One.\npub fn f() -> u8 {{ x1!() }}", 0),
}

# The files that are no part of their crate, or that are included where no item may be. They aren't written, and their calls aren't
# expanded.
NOT_READ = {"cfg": ["w.rs"], "cfg_off": ["a.rs"], "cfg_path": ["w.rs", "a.rs"], "cfg_no_path": ["w.rs"], "include_value": ["b.rs"]}


def files_of(text):
    parts = re.split(r"^// (\S+\.rs)\n", text, flags=re.M)
    return list(zip(parts[1::2], parts[2::2]))


def write(folder, text):
    for path, content in files_of(text):
        common.write(f"{folder}/{path}", content)


def outcome(folder):
    """What the program prints, or why there is none."""
    made = common.rustc("-Awarnings", "-o", f"{folder}/program", f"{folder}/main.rs")
    if made.returncode:
        return None, made.stderr
    ran = common.run([f"{folder}/program"])
    return (ran.returncode, ran.stdout), ran.stderr


def expand_all(work, program):
    """Expands each crate, and returns what `expandm` reported."""
    reported = ""
    for name in CRATES:
        to = f"{work}/after/{name}"
        os.makedirs(to, exist_ok=True)
        reported += common.run([program, "--write", to, f"{work}/before/{name}/main.rs"]).stderr
    return reported


def calls_left(folder):
    count = 0
    for base, _, names in os.walk(folder):
        for name in names:
            if name.endswith(".rs"):
                count += len(re.findall(r"\bx\d!\s*[({[]", common.read(f"{base}/{name}")))
    return count


def inside_definitions(text):
    """Counts the calls in the rules of definitions, which aren't expanded."""
    return sum(len(re.findall(r"\bx\d!\s*[({[]", line)) for line in text.splitlines() if "macro_rules!" in line)


def wrong(work, name):
    text, stays = CRATES[name]
    before, why = outcome(f"{work}/before/{name}")
    if before is None:
        return f"rustc refuses the crate: {why}"
    missing = [path for path, _ in files_of(text) if not os.path.exists(f"{work}/after/{name}/{path}")]
    if missing != NOT_READ.get(name, []):
        return f"not written: {missing}"
    write(f"{work}/after/{name}", "".join(f"// {path}\n{content}" for path, content in files_of(text) if path in missing))
    after, why = outcome(f"{work}/after/{name}")
    if after != before:
        return f"{before} becomes {after}: {why}"
    left = calls_left(f"{work}/after/{name}") - inside_definitions(text)
    return None if left == stays else f"{left} calls are left"


def main():
    parser = common.arguments(__doc__)
    common.add_expandm(parser)
    parser.add_argument("--keep", metavar="FOLDER", help="keep the crates in FOLDER")
    args = parser.parse_args()
    differ = 0
    with common.folder(args.keep) as work:
        for name, (text, _) in CRATES.items():
            write(f"{work}/before/{name}", text)
        reported = expand_all(work, common.expandm(args.program))
        for name in CRATES:
            why = wrong(work, name)
            if why:
                differ += 1
                print(f"{name}: {why}")
    if differ:
        print(reported)
    print(f"{len(CRATES)} crates, {differ} differ")
    return common.finish(len(CRATES) - differ, differ)


if __name__ == "__main__":
    sys.exit(main())
