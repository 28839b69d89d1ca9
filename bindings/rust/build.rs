//! Finds the archive: in the folder that PONDS_LIB names, else where `bin/archive` writes it.
use std::env;
use std::path::PathBuf;

fn main() {
    println!("cargo:rerun-if-env-changed=PONDS_LIB");
    let here = PathBuf::from(env::var_os("CARGO_MANIFEST_DIR").expect("cargo sets it"));
    let folder = match env::var_os("PONDS_LIB") {
        Some(named) => PathBuf::from(named),
        None => here.join("../../target/staticlib"),
    };
    let target = env::var("CARGO_CFG_TARGET_ARCH").expect("cargo sets it");
    let archive = folder.join("libponds.a");
    if target != "x86_64" {
        panic!("the archive is for x86-64 alone, and this is built for {target}");
    }
    if !archive.exists() {
        let archive = archive.display();
        panic!("there is no {archive}: `bin/archive` writes it, and PONDS_LIB names another folder");
    }
    println!("cargo:rerun-if-changed={}", archive.display());
    println!("cargo:rustc-link-search=native={}", folder.display());
    println!("cargo:rustc-link-lib=static=ponds");
}
