//! Links the static library that `tools/build bench_api` writes.
use std::path::Path;

fn main() {
    let folder = Path::new(env!("CARGO_MANIFEST_DIR")).join("../target/staticlib");
    let archive = folder.join("libbench_api.a");
    assert!(archive.is_file(), "{} is missing: run `bash tools/build bench_api` first", archive.display());
    println!("cargo::rustc-link-search=native={}", folder.display());
    println!("cargo::rustc-link-lib=static=bench_api");
    println!("cargo::rerun-if-changed={}", archive.display());
}
