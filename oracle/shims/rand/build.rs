//! Finds the sources of rand, rand_pcg and rand_core and compiles them, unchanged, for the Rust's own shuffle. Where they aren't there, only
//! that one is missing.

use std::path::{Path, PathBuf};
use std::process::Command;
use std::{env, process};

/// Where Debian's packages put them.
const DEFAULT: &str = "/usr/share/cargo/registry";
/// Names and folders. All need the first; the other two have names that aren't those of the shims.
const SOURCES: [(&str, &str); 3] =
    [("rand_core", "rand_core-0.6.3"), ("own_pcg", "rand_pcg-0.3.1"), ("own_rand", "rand-0.8.5")];

fn main() {
    println!("cargo::rerun-if-env-changed=RAND_SRC");
    println!("cargo::rerun-if-changed=build.rs");
    println!("cargo::rustc-check-cfg=cfg(own_rand)");
    let here = PathBuf::from(env::var_os("CARGO_MANIFEST_DIR").expect("set by cargo"));
    let out = PathBuf::from(env::var_os("OUT_DIR").expect("set by cargo"));
    // a relative path starts at the oracle's folder
    let folder = here.join("../..").join(env::var_os("RAND_SRC").unwrap_or(DEFAULT.into()));
    let sources = SOURCES.map(|(name, version)| (name, folder.join(version).join("src/lib.rs")));
    for (_, source) in &sources {
        println!("cargo::rerun-if-changed={}", source.display());
    }
    if sources.iter().all(|(_, source)| source.is_file()) {
        let [core, pcg, rand] = &sources;
        compile(core.0, &core.1, &[], &out);
        compile(pcg.0, &pcg.1, &["--extern", core.0], &out);
        compile(rand.0, &rand.1, &["--extern", core.0], &out);
        println!("cargo::rustc-link-search={}", out.display());
        println!("cargo::rustc-cfg=own_rand");
    }
}

/// Writes the crate's library into the folder, where those that it needs are.
fn compile(name: &str, source: &Path, needs: &[&str], out: &Path) {
    let rustc = env::var_os("RUSTC").expect("set by cargo");
    let mut command = Command::new(rustc);
    command.args(["--edition", "2018", "--crate-type", "rlib", "--cap-lints", "allow", "-C", "opt-level=3"]);
    command.args(["-C", "metadata=oracle", "--crate-name", name]).args(needs);
    command.arg("-L").arg(out).arg("--out-dir").arg(out).arg(source);
    if !command.status().is_ok_and(|status| status.success()) {
        println!("cargo::error={} can't be compiled", source.display());
        process::exit(1);
    }
}
