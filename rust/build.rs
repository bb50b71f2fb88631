//! Links the engine's archive: from the folder that RIMEMAPLE_LIB names, or from this repository's own.

use std::env;
use std::path::{Path, PathBuf};

const FOLDER: &str = "RIMEMAPLE_LIB";

fn main() {
    let folder = match env::var_os(FOLDER) {
        Some(folder) => PathBuf::from(folder),
        None => Path::new(env!("CARGO_MANIFEST_DIR")).join("../target/lib"),
    };
    let archive = folder.join("librimemaple.a");
    println!("cargo::rerun-if-env-changed={FOLDER}");
    println!("cargo::rerun-if-changed={}", archive.display());
    if archive.is_file() {
        println!("cargo::rustc-link-search=native={}", folder.display());
        println!("cargo::rustc-link-lib=static=rimemaple");
    } else {
        println!(
            "cargo::error=run make library first: no {}",
            archive.display()
        );
    }
}
