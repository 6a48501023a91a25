//! Says where the proved archive is: in `SAFTMAGNET_LIB`, or where `./sf library` writes it.

use std::{env, path::PathBuf};

fn main() {
    let beside = || PathBuf::from(env::var("CARGO_MANIFEST_DIR").expect("cargo says where the package is")).join("../target/staticlib");
    let folder = env::var("SAFTMAGNET_LIB").map_or_else(|_| beside(), PathBuf::from);
    let archive = folder.join("libcapi.a");
    if !archive.exists() {
        println!("cargo:warning={} is missing: ./sf library proves and writes it", archive.display());
    }
    println!("cargo:rerun-if-env-changed=SAFTMAGNET_LIB");
    println!("cargo:rerun-if-changed={}", archive.display());
    println!("cargo:rustc-link-search=native={}", folder.display());
    println!("cargo:rustc-link-lib=static=capi");
}
