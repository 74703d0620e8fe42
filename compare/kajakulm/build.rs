//! Says where libkajakulm.a lies: in the folder that KAJAKULM_LIB names
//! (relative to compare/), else where tools/compare has it made.

use std::env;
use std::path::{Path, PathBuf};

fn main() {
    println!("cargo:rerun-if-env-changed=KAJAKULM_LIB");
    let folder = folder();
    let archive = folder.join("libkajakulm.a");
    println!("cargo:rerun-if-changed={}", archive.display());
    if !archive.exists() {
        println!("cargo:warning=there is no {}", archive.display());
    }
    println!("cargo:rustc-link-search=native={}", folder.display());
    println!("cargo:rustc-link-lib=static=kajakulm");
}

fn folder() -> PathBuf {
    let workspace = Path::new(env!("CARGO_MANIFEST_DIR")).join("..");
    let named = env::var_os("KAJAKULM_LIB").unwrap_or_else(|| "../target/library".into());
    workspace.join(named)
}
