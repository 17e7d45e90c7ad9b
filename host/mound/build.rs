//! Says where the static library of the proved queue is: in target/staticlib at the root of the
//! repository that this crate stands in, or in the folder that the environment variable
//! `MOUND_LIBRARY_DIR` names, an absolute path.

use std::env;
use std::path::{Path, PathBuf};

const OVERRIDE: &str = "MOUND_LIBRARY_DIR";

fn main() {
    let folder = env::var_os(OVERRIDE).map_or_else(default_folder, PathBuf::from);
    let archive = folder.join("libmound.a");
    if !archive.exists() {
        let archive = archive.display();
        println!(
            "cargo::warning={archive} is missing: `./library` at the repository's root builds it"
        );
    }
    println!("cargo::rerun-if-env-changed={OVERRIDE}");
    println!("cargo::rerun-if-changed={}", archive.display());
    println!("cargo::rustc-link-search=native={}", folder.display());
    println!("cargo::rustc-link-lib=static=mound");
}

/// The crate stands in host/mound.
fn default_folder() -> PathBuf {
    let package = env::var_os("CARGO_MANIFEST_DIR").expect("cargo names the package's folder");
    let repository = Path::new(&package).ancestors().nth(2).expect("the package is two folders in");
    repository.join("target/staticlib")
}
