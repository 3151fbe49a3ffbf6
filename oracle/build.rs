//! Finds the sources of tycho and lays out `OUT_DIR/commit`.

use std::path::{Path, PathBuf};
use std::{env, fs, process};

/// Read unchanged, relative to `consensus/src`.
const FILES: [&str; 13] = [
    "dag/commit/mod.rs",
    "dag/commit/back.rs",
    "dag/commit/inspector.rs",
    "dag/dag_round.rs",
    "intercom/peer_schedule/stats_ranges.rs",
    "models/cert.rs",
    "models/dag_point.rs",
    "models/output.rs",
    "models/point/data.rs",
    "models/point/info.rs",
    "models/point/parts.rs",
    "models/stats.rs",
    "moderator/journal/event.rs",
];

const DEFAULT: &str = "../../shared/docs/src";

fn main() {
    println!("cargo::rerun-if-env-changed=TYCHO_SRC");
    println!("cargo::rerun-if-changed=build.rs");
    let here = PathBuf::from(env::var_os("CARGO_MANIFEST_DIR").expect("set by cargo"));
    let out = PathBuf::from(env::var_os("OUT_DIR").expect("set by cargo"));
    let folder = here.join(env::var_os("TYCHO_SRC").unwrap_or(DEFAULT.into()));
    let sources = found(&folder);
    println!("cargo::rustc-env=TYCHO_CONSENSUS={}", sources.display());
    lay_out_commit(&here, &sources, &out.join("commit"));
}

/// The folder `consensus/src`, or the end of the build with a message.
fn found(folder: &Path) -> PathBuf {
    let sources = folder.join("consensus/src");
    for file in FILES {
        let path = sources.join(file);
        println!("cargo::rerun-if-changed={}", path.display());
        if !path.is_file() {
            println!("cargo::error=the sources of tycho are missing: there is no {}", path.display());
            println!("cargo::error=set TYCHO_SRC to the folder that holds `consensus/` of broxus/tycho at 0212f7255e");
            process::exit(1);
        }
    }
    sources.canonicalize().expect("the folder is there")
}

/// `commit/mod.rs` declares `mod back;` and `mod inspector;`, which are looked up beside it. Here that is the wrapper
/// in src/dag/commit, which includes the unchanged file and adds what reads its private fields.
fn lay_out_commit(here: &Path, sources: &Path, commit: &Path) {
    fs::create_dir_all(commit).expect("OUT_DIR can be written");
    let bytes = fs::read(sources.join("dag/commit/mod.rs")).expect("the file is there");
    fs::write(commit.join("mod.rs"), bytes).expect("OUT_DIR can be written");
    for name in ["back.rs", "inspector.rs"] {
        let wrapper = here.join("src/dag/commit").join(name);
        let text = format!("include!({wrapper:?});\n");
        fs::write(commit.join(name), text).expect("OUT_DIR can be written");
    }
}
