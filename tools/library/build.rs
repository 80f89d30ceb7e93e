//! Finds the proved library and links it, unless something stands in for it.

use std::env;
use std::path::PathBuf;

fn main() {
    if env::var_os("CARGO_FEATURE_STAND_IN").is_some() {
        return;
    }
    let manifest = env::var_os("CARGO_MANIFEST_DIR").expect("cargo names the manifest's folder");
    let folder = PathBuf::from(manifest).join("../../target/staticlib");
    let library = folder.join("libabi.a");
    println!("cargo:rerun-if-changed={}", library.display());
    if !library.exists() {
        panic!(
            "the proved library is not there: {} is missing; run tools/dist/library.sh",
            library.display()
        );
    }
    println!("cargo:rustc-link-search=native={}", folder.display());
    println!("cargo:rustc-link-lib=static=abi");
}
