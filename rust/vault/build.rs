//! Finds libvault_c.a, which `rt lib` writes in crates/vault_c: in $VAULT_LIB_DIR, else in that crate's folder out.

use std::env;
use std::path::PathBuf;
use std::process::exit;

fn main() {
    println!("cargo::rerun-if-env-changed=VAULT_LIB_DIR");
    if env::var_os("CARGO_FEATURE_MOCK").is_some() {
        return;
    }
    let beside = PathBuf::from(env::var_os("CARGO_MANIFEST_DIR").expect("cargo sets it")).join("../../crates/vault_c/out");
    let folder = env::var_os("VAULT_LIB_DIR").map(PathBuf::from).unwrap_or(beside);
    let archive = folder.join("libvault_c.a");
    println!("cargo::rerun-if-changed={}", archive.display());
    if !archive.is_file() {
        println!("cargo::error=the proved library is not there: {}", archive.display());
        println!("cargo::error=make it with `rt lib` in the repository's crates/vault_c (or `make lib` in rust/),");
        println!("cargo::error=or name its folder: VAULT_LIB_DIR=/path/to/folder,");
        println!("cargo::error=or build over the unproved stand-in: --features mock");
        exit(1);
    }
    let folder = folder.canonicalize().expect("it was just found");
    println!("cargo::rustc-link-search=native={}", folder.display());
    println!("cargo::rustc-link-lib=static=vault_c");
}
