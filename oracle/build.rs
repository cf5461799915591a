//! Hands source 000 to the compiler from where it stands, with the one declared edit.

use std::path::{Path, PathBuf};
use std::{env, fs};

const EDIT_FROM: &str = "sort_unstable_by(";
const EDIT_TO: &str = "sort_by(";

fn main() {
    let here = PathBuf::from(env::var("CARGO_MANIFEST_DIR").unwrap());
    let out = PathBuf::from(env::var("OUT_DIR").unwrap());
    println!("cargo:rerun-if-env-changed=ORACLE_SRC");
    let folder = env::var("ORACLE_SRC").map_or_else(|_| here.join("../../shared/docs/src"), PathBuf::from);
    let folder = folder.canonicalize().unwrap_or_else(|e| panic!("no source 000 at {}: {e}", folder.display()));

    let palette = read(&folder.join("src/palette.rs"));
    assert_eq!(palette.matches(EDIT_FROM).count(), 1, "`{EDIT_FROM}` must stand in source 000 exactly once");
    let edited = palette.replacen(EDIT_FROM, EDIT_TO, 1);
    fs::write(out.join("difference.txt"), difference(&palette, &edited)).unwrap();
    let harness = here.join("src/harness.rs");
    fs::write(out.join("palette.rs"), format!("{edited}\n#[path = {harness:?}]\npub(crate) mod harness;\n")).unwrap();

    let engine = folder.join("src/cabac/engine.rs");
    let contexts = folder.join("src/cabac/contexts.rs");
    for file in [&engine, &contexts] {
        println!("cargo:rerun-if-changed={}", file.display());
    }
    let modules = format!(
        "#[allow(dead_code)]\nmod cabac {{\n    #[path = {engine:?}]\n    pub(crate) mod engine;\n    #[path = {contexts:?}]\n    pub(crate) mod contexts;\n}}\n#[allow(dead_code)]\n#[path = {:?}]\nmod palette;\n",
        out.join("palette.rs"),
    );
    fs::write(out.join("source.rs"), modules).unwrap();
}

fn read(file: &Path) -> String {
    println!("cargo:rerun-if-changed={}", file.display());
    fs::read_to_string(file).unwrap_or_else(|e| panic!("{}: {e}", file.display()))
}

/// The lines in which the two differ, as a diff has them.
fn difference(before: &str, after: &str) -> String {
    let mut lines = String::from("source 000 is built as it stands, but for:\n");
    for (at, (old, new)) in before.lines().zip(after.lines()).enumerate() {
        if old != new {
            lines += &format!("  src/palette.rs:{}\n  -{old}\n  +{new}\n", at + 1);
        }
    }
    lines
}
