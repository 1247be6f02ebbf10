//! Finds `prim_graph.rs` and writes the one-item file that compiles it in place, unchanged, as `pcp::prim_graph`.

use std::path::{Path, PathBuf};
use std::{env, fs, process};

/// Where the file is looked for when `PRIM_GRAPH_RS` names none, from the repository's root.
const DEFAULT_SOURCE: &str = "../shared/docs/src/crates/openusd/src/pcp/prim_graph.rs";

fn main() {
    println!("cargo::rerun-if-env-changed=PRIM_GRAPH_RS");
    let named = env::var_os("PRIM_GRAPH_RS").unwrap_or_else(|| DEFAULT_SOURCE.into());
    let source = repository_root().join(named);
    println!("cargo::rerun-if-changed={}", source.display());
    let Ok(source) = source.canonicalize() else {
        fail(&format!("there is no {}: name prim_graph.rs in PRIM_GRAPH_RS", source.display()));
    };
    // for the test that reads its text
    println!("cargo::rustc-env=PRIM_GRAPH_FOUND={}", source.display());
    let item = format!("#[allow(dead_code)]\n#[path = {source:?}]\npub mod prim_graph;\n");
    let written = Path::new(&variable("OUT_DIR")).join("prim_graph_item.rs");
    if let Err(error) = fs::write(&written, item) {
        fail(&format!("{} cannot be written: {error}", written.display()));
    }
}

/// The folder that holds `oracle/`. A relative `PRIM_GRAPH_RS` is taken from there too.
fn repository_root() -> PathBuf {
    Path::new(&variable("CARGO_MANIFEST_DIR")).join("..")
}

/// A variable that cargo sets for every build script.
fn variable(name: &str) -> String {
    env::var(name).unwrap_or_else(|_| fail(&format!("cargo has not set {name}")))
}

/// Stops the build with one line. Cargo takes the line for the failure, so the script itself ends well.
fn fail(message: &str) -> ! {
    println!("cargo::error={message}");
    process::exit(0);
}
