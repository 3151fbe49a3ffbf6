//! Finds the static library of the proved calls and links it.

use std::path::{Path, PathBuf};
use std::{env, fs, process};

const DEFAULT: &str = "../target/staticlib/libcommitter.a";

fn main() {
    println!("cargo::rerun-if-env-changed=COMMITTER_LIB");
    println!("cargo::rerun-if-changed=build.rs");
    let here = PathBuf::from(env::var_os("CARGO_MANIFEST_DIR").expect("set by cargo"));
    let out = PathBuf::from(env::var_os("OUT_DIR").expect("set by cargo"));
    let archive = here.join(env::var_os("COMMITTER_LIB").unwrap_or(DEFAULT.into()));
    println!("cargo::rerun-if-changed={}", archive.display());
    stop_without(&archive);
    // copied, so that the archive may have any name
    fs::copy(&archive, out.join("libcommitter.a")).expect("the archive can be read and OUT_DIR written");
    println!("cargo::rustc-link-search=native={}", out.display());
    println!("cargo::rustc-link-lib=static=committer");
}

/// Ends the build with a message if the archive isn't there.
fn stop_without(archive: &Path) {
    if archive.is_file() {
        return;
    }
    println!("cargo::error=the static library is missing: there is no {}", archive.display());
    println!(
        "cargo::error=run `.ci/build` in the repository first, or set COMMITTER_LIB to the path of the archive"
    );
    process::exit(1);
}
