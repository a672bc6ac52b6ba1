//! Finds the archives that host/archives.sh writes, in the folder that PIVOTFERN_LIB names (a relative name counts from the workspace), else in
//! target/staticlib of the repository: `edge`, and `edge_compare` where the feature `compare` asks for its calls.

use std::path::PathBuf;
use std::{env, process};

fn main() {
    println!("cargo:rerun-if-env-changed=PIVOTFERN_LIB");
    let workspace = PathBuf::from(env::var_os("CARGO_MANIFEST_DIR").unwrap_or_default()).join("..");
    let folder = match env::var_os("PIVOTFERN_LIB") {
        Some(named) => workspace.join(named),
        None => workspace.join("../target/staticlib"),
    };
    println!("cargo:rustc-link-search=native={}", folder.display());
    let mut names = vec!["edge"];
    if env::var_os("CARGO_FEATURE_COMPARE").is_some() {
        names.push("edge_compare");
    }
    for name in names {
        let archive = folder.join(format!("lib{name}.a"));
        if !archive.is_file() {
            eprintln!("{} is not there.", archive.display());
            eprintln!("Write it with host/archives.sh {name} in the repository, or name its folder in PIVOTFERN_LIB.");
            process::exit(1);
        }
        println!("cargo:rerun-if-changed={}", archive.display());
        println!("cargo:rustc-link-lib=static={name}");
    }
}
