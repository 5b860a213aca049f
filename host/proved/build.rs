//! Tells where the proved engine's static library lies.

use std::env;
use std::path::PathBuf;

fn main() {
    println!("cargo:rerun-if-env-changed=GWEZHELIN_LIB_DIR");
    let directory = match env::var_os("GWEZHELIN_LIB_DIR") {
        Some(directory) => PathBuf::from(directory),
        None => {
            let here = env::var_os("CARGO_MANIFEST_DIR").expect("cargo names the crate's folder");
            PathBuf::from(here).join("../../target/staticlib")
        }
    };
    let library = directory.join("libgwezhelin.a");
    // A new library must be linked anew, although no source has changed.
    println!("cargo:rerun-if-changed={}", library.display());
    println!("cargo:rustc-link-search=native={}", directory.display());
    println!("cargo:rustc-link-lib=static=gwezhelin");
}
