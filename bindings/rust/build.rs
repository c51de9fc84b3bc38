//! Links libwat.a in the folder that the environment variable WAT_LIBRARY_FOLDER names, or else in this crate's folder.
use std::env;

fn main() {
    println!("cargo:rerun-if-env-changed=WAT_LIBRARY_FOLDER");
    let folder = env::var("WAT_LIBRARY_FOLDER").or_else(|_| env::var("CARGO_MANIFEST_DIR"));
    let folder = folder.expect("cargo sets CARGO_MANIFEST_DIR");
    println!("cargo:rerun-if-changed={folder}/libwat.a");
    println!("cargo:rustc-link-search=native={folder}");
    println!("cargo:rustc-link-lib=static=wat");
}
