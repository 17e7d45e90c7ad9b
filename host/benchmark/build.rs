//! Has the benchmark linked with the library's functions at cache lines.

use std::env;
use std::path::Path;

fn main() {
    let package = env::var_os("CARGO_MANIFEST_DIR").expect("cargo names the package's folder");
    let script = Path::new(&package).join("aligned.ld");
    println!("cargo::rerun-if-changed=aligned.ld");
    println!("cargo::rustc-link-arg-bins=-T");
    println!("cargo::rustc-link-arg-bins={}", script.display());
}
