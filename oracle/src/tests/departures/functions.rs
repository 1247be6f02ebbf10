//! The document on departures has every function of the Rust file.

/// The file that the build compiles, and the document.
const RUST: &str = include_str!(env!("PRIM_GRAPH_FOUND"));
const DOCUMENT: &str = include_str!("../../../../docs/DIFFERENCES.md");

/// The names of the functions that `text` defines.
fn functions(text: &str) -> Vec<&str> {
    let lines = text.lines().map(str::trim_start).filter(|line| !line.starts_with("//"));
    let after = lines.filter_map(|line| line.split_once("fn ")).map(|(_, name)| name);
    after.filter_map(|name| name.split(['(', '<']).next()).filter(|name| !name.contains(' ')).collect()
}

#[test]
fn each_function_is_named() {
    let functions = functions(RUST);
    assert!(functions.len() > 80 && functions.contains(&"order_is_current"), "{functions:?}");
    let section = DOCUMENT.split("\n## ").find(|section| section.starts_with("Every function")).expect("the section");
    for name in functions {
        assert!(section.contains(&format!("`{name}`")) || section.contains(&format!("::{name}`")), "{name}");
    }
}
