//! Links the port's archives, which `tools/archives` makes, and declares the calls that they export.

use std::path::{Path, PathBuf};
use std::process::Command;
use std::{env, fs};

fn main() {
    let root = Path::new(&env::var("CARGO_MANIFEST_DIR").unwrap()).join("../..").canonicalize().unwrap();
    let archives = root.join("target/staticlib");
    println!("cargo:rustc-link-search=native={}", archives.display());
    let depends = |file: PathBuf| println!("cargo:rerun-if-changed={}", file.display());
    depends(root.join("crates.txt"));
    depends(root.join("tools/prototypes"));
    let crates = fs::read_to_string(root.join("crates.txt")).unwrap();
    for name in crates.lines().filter_map(|line| line.split_once("_c staticlib:")).map(|(name, _)| name) {
        depends(root.join(format!("crates/{name}_c/src/lib.rt")));
        depends(archives.join(format!("lib{name}.a")));
        println!("cargo:rustc-link-lib=static={name}");
    }
    let out = PathBuf::from(env::var("OUT_DIR").unwrap());
    let declared: String = told(&root, "rust").lines().map(|line| format!("    pub {line}\n")).collect();
    fs::write(out.join("exported.rs"), format!("extern \"C\" {{\n{declared}}}\n")).unwrap();
    fs::write(out.join("calls.rs"), told(&root, "slices")).unwrap();
}

/// The exported calls in one of the forms that `tools/prototypes` has.
fn told(root: &Path, form: &str) -> String {
    let done = Command::new(root.join("tools/prototypes")).arg(form).output().unwrap_or_else(|why| panic!("tools/prototypes: {why}"));
    assert!(done.status.success(), "tools/prototypes failed:\n{}", String::from_utf8_lossy(&done.stderr));
    String::from_utf8(done.stdout).unwrap()
}
