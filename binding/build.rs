//! Links the proved archive: target/staticlib/libhost.a of the repository, or libhost.a in the folder
//! that HRT_ARCHIVE names.

use std::path::PathBuf;
use std::process::exit;
use std::{env, fs};

fn main() {
    println!("cargo:rerun-if-env-changed=HRT_ARCHIVE");
    let folder = match env::var_os("HRT_ARCHIVE") {
        Some(folder) => PathBuf::from(folder),
        None => PathBuf::from(env!("CARGO_MANIFEST_DIR")).join("../target/staticlib"),
    };
    let archive = folder.join("libhost.a");
    println!("cargo:rerun-if-changed={}", archive.display());
    if fs::metadata(&archive).is_err() {
        eprintln!("{} isn't there; binding/archive proves and builds it", archive.display());
        exit(1);
    }
    println!("cargo:rustc-link-search=native={}", folder.display());
    println!("cargo:rustc-link-lib=static=host");
}
