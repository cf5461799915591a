//! Links the port's archives and declares the calls that its crates export.
//!
//! The archives are made by `tools/archives`, or lie in the folder that VELOMITRA_ARCHIVES names.

use std::path::{Path, PathBuf};
use std::process::Command;
use std::{env, fs};

fn main() {
    let root = Path::new(&env::var("CARGO_MANIFEST_DIR").unwrap()).join("../..").canonicalize().unwrap();
    for file in ["crates.txt", "tools"] {
        println!("cargo:rerun-if-changed={}", root.join(file).display());
    }
    // all but crates/*/out, where rt keeps what it made
    for name in fs::read_dir(root.join("crates")).unwrap().map(|entry| entry.unwrap().path()) {
        for part in ["src", "specs", "proofs"].map(|part| name.join(part)).iter().filter(|part| part.is_dir()) {
            println!("cargo:rerun-if-changed={}", part.display());
        }
    }
    println!("cargo:rerun-if-env-changed=VELOMITRA_ARCHIVES");
    let folder = env::var_os("VELOMITRA_ARCHIVES").map(PathBuf::from).unwrap_or_else(|| {
        run(&root, "tools/archives", &[]);
        root.join("target/staticlib")
    });
    println!("cargo:rustc-link-search=native={}", folder.display());
    let crates = fs::read_to_string(root.join("crates.txt")).unwrap();
    for name in crates.lines().filter_map(|line| line.split_once("_c staticlib:")).map(|(name, _)| name) {
        let archive = folder.join(format!("lib{name}.a"));
        assert!(archive.is_file(), "{} is not there", archive.display());
        println!("cargo:rerun-if-changed={}", archive.display());
        println!("cargo:rustc-link-lib=static={name}");
    }

    let calls = run(&root, "tools/prototypes", &["rust"]);
    let lines: String = calls.lines().map(|line| format!("    pub {line}\n")).collect();
    let declared = format!("unsafe extern \"C\" {{\n{lines}}}\n");
    fs::write(Path::new(&env::var("OUT_DIR").unwrap()).join("exported.rs"), declared).unwrap();
}

/// What a script of the repository prints.
fn run(root: &Path, script: &str, words: &[&str]) -> String {
    let done = Command::new(root.join(script)).args(words).output().unwrap_or_else(|why| panic!("{script}: {why}"));
    assert!(done.status.success(), "{script} failed:\n{}", String::from_utf8_lossy(&done.stderr));
    String::from_utf8(done.stdout).unwrap()
}
