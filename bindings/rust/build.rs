//! Says to the linker where the archive of the proved calls is: in the folder that RECEIVER_ARCHIVE names by its absolute path, otherwise where
//! `tools/archive` writes it.
use std::{env, path::PathBuf};

fn main() {
    println!("cargo:rerun-if-env-changed=RECEIVER_ARCHIVE");
    let folder = match env::var_os("RECEIVER_ARCHIVE") {
        Some(folder) => PathBuf::from(folder),
        None => PathBuf::from(env::var_os("CARGO_MANIFEST_DIR").unwrap()).join("../../target/staticlib"),
    };
    assert!(folder.is_absolute(), "RECEIVER_ARCHIVE is not an absolute path: {}", folder.display());
    let archive = folder.join("libreceiver_c.a");
    println!("cargo:rerun-if-changed={}", archive.display());
    if !archive.exists() {
        println!("cargo:warning={} is not there: run tools/archive first", archive.display());
    }
    println!("cargo:rustc-link-search=native={}", folder.display());
    println!("cargo:rustc-link-lib=static=receiver_c");
}
