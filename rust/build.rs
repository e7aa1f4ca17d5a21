//! Links libchizuregwo.a: from the folder that CHIZUREGWO_LIB_DIR names, otherwise from the repository's build/.

use std::env;
use std::path::{Path, PathBuf};
use std::process::exit;

fn main() {
    println!("cargo:rerun-if-env-changed=CHIZUREGWO_LIB_DIR");
    let manifest = env::var("CARGO_MANIFEST_DIR").expect("cargo sets CARGO_MANIFEST_DIR");
    let folder = env::var_os("CHIZUREGWO_LIB_DIR")
        .map(PathBuf::from)
        .unwrap_or_else(|| Path::new(&manifest).join("../build"));
    let archive = folder.join("libchizuregwo.a");
    println!("cargo:rerun-if-changed={}", archive.display());
    if !archive.is_file() {
        eprintln!("{}: there is no such file", archive.display());
        eprintln!("run `make lib`, or set CHIZUREGWO_LIB_DIR to the folder that holds it");
        exit(1);
    }
    println!("cargo:rustc-link-search=native={}", folder.display());
    println!("cargo:rustc-link-lib=static=chizuregwo");
}
