//! Links the proved regulator, `libexports.a`.

use std::env;
use std::path::{Path, PathBuf};

/// The folder of the archive where it is not `target/staticlib` of the repository.
const FOLDER: &str = "BEZHANTIRU_LIB_DIR";

fn main() {
    println!("cargo::rerun-if-env-changed={FOLDER}");
    let archive = folder().join("libexports.a");
    match archive.canonicalize() {
        Ok(found) => link(&found),
        Err(problem) => {
            let archive = archive.display();
            println!(
                "cargo::error=no regulator at {archive} ({problem}): make it with scripts/archive, or set {FOLDER} to the absolute path of its folder"
            );
        }
    }
}

fn folder() -> PathBuf {
    let built = Path::new(env!("CARGO_MANIFEST_DIR")).join("../../target/staticlib");
    env::var_os(FOLDER).map_or(built, PathBuf::from)
}

fn link(archive: &Path) {
    println!("cargo::rerun-if-changed={}", archive.display());
    if let Some(folder) = archive.parent() {
        println!("cargo::rustc-link-search=native={}", folder.display());
    }
    println!("cargo::rustc-link-lib=static=exports");
}
