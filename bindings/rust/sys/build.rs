//! Finds the library and links it. The first of these is taken:
//!
//! 1. the static library `libmbe.a` in the folder `MBE_LIB_DIR`;
//! 2. the library that `pkg-config` knows as `mbe`, in version 0.1;
//! 3. the static library that the crate has inside, for x86-64 Linux with the GNU C library.
//!
//! The library needs malloc, realloc, free and copies of memory from the C library.

use std::env;
use std::path::{Path, PathBuf};
use std::process::{Command, ExitCode};

const FILE: &str = "libmbe.a";
/// The target of the library inside the crate.
const BUNDLED_FOR: &str = "x86_64-unknown-linux-gnu";

fn main() -> ExitCode {
    for name in ["MBE_LIB_DIR", "PKG_CONFIG", "PKG_CONFIG_PATH", "PKG_CONFIG_LIBDIR", "DOCS_RS"] {
        println!("cargo:rerun-if-env-changed={name}");
    }
    println!("cargo:rerun-if-changed=build.rs");
    // Documents need no library.
    if env::var_os("DOCS_RS").is_some() {
        return ExitCode::SUCCESS;
    }
    match link() {
        Ok(()) => ExitCode::SUCCESS,
        Err(why) => {
            eprintln!("error: {why}");
            ExitCode::FAILURE
        }
    }
}

fn link() -> Result<(), String> {
    if let Some(given) = env::var_os("MBE_LIB_DIR") {
        let dir = PathBuf::from(&given);
        if dir.join(FILE).is_file() {
            return link_static(&dir);
        }
        return Err(format!("mbe-sys: MBE_LIB_DIR is {}, which has no {FILE}", dir.display()));
    }
    if link_by_pkg_config() {
        return Ok(());
    }
    let root = env::var_os("CARGO_MANIFEST_DIR").map(PathBuf::from).unwrap_or_default();
    let native = root.join("native");
    if native.join(FILE).is_file() && env::var("TARGET").as_deref() == Ok(BUNDLED_FOR) {
        return link_static(&native);
    }
    Err(format!(
        "mbe-sys: no library: set MBE_LIB_DIR to the folder of {FILE}, or install libmbe with \
         its mbe.pc; the crate has a library inside for {BUNDLED_FOR} alone"
    ))
}

fn link_static(dir: &Path) -> Result<(), String> {
    let shown = dir.to_str().ok_or("mbe-sys: the path of the library isn't UTF-8")?;
    println!("cargo:rerun-if-changed={shown}/{FILE}");
    println!("cargo:rustc-link-search=native={shown}");
    println!("cargo:rustc-link-lib=static=mbe");
    Ok(())
}

/// Whether `pkg-config` knows the library. A build for another target doesn't ask it.
fn link_by_pkg_config() -> bool {
    if env::var("HOST") != env::var("TARGET") {
        return false;
    }
    let program = env::var_os("PKG_CONFIG").unwrap_or_else(|| "pkg-config".into());
    let asked = Command::new(program).args(["--libs", "mbe >= 0.1.0 mbe < 0.2.0"]).output();
    let Ok(ran) = asked else { return false };
    let Ok(words) = String::from_utf8(ran.stdout) else { return false };
    if !ran.status.success() {
        return false;
    }
    for word in words.split_whitespace() {
        if let Some(dir) = word.strip_prefix("-L") {
            println!("cargo:rustc-link-search=native={dir}");
        } else if let Some(name) = word.strip_prefix("-l") {
            println!("cargo:rustc-link-lib={name}");
        }
    }
    true
}
