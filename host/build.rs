//! Links `libvma.a`, the proved code as a C library, from `../target/staticlib` or from `VMA_LIBRARY_DIR`.

use std::path::{Path, PathBuf};

const FOLDER: &str = "VMA_LIBRARY_DIR";

fn main() {
    println!("cargo::rerun-if-env-changed={FOLDER}");
    let folder = folder();
    let library = folder.join("libvma.a");
    println!("cargo::rerun-if-changed={}", library.display());
    if !library.is_file() {
        println!("cargo::error=there is no {}: run `make library` first", library.display());
        return;
    }
    println!("cargo::rustc-link-search=native={}", folder.display());
    println!("cargo::rustc-link-lib=static=vma");
}

fn folder() -> PathBuf {
    match std::env::var_os(FOLDER) {
        Some(folder) => PathBuf::from(folder),
        None => Path::new(env!("CARGO_MANIFEST_DIR")).join("../target/staticlib"),
    }
}
