//! Finds the proved archive and links it: in the folder that KITESONNET_LIB names, or else where `rt lib` writes it.
//! If it is not there, this stops with a sentence about what to do, since a linker's message would not say it.

use std::env;
use std::path::{Path, PathBuf};
use std::process::exit;

const NAMED_BY: &str = "KITESONNET_LIB";
const WRITTEN_TO: &str = "../../crates/kitesonnet/out";
const ARCHIVE: &str = "libkitesonnet.a";

fn main() {
    let package = PathBuf::from(env::var_os("CARGO_MANIFEST_DIR").expect("cargo tells a build script its package's folder"));
    let named = env::var_os(NAMED_BY).unwrap_or_else(|| WRITTEN_TO.into());
    let folder = package.join(named);
    let archive = folder.join(ARCHIVE);
    println!("cargo:rerun-if-env-changed={NAMED_BY}");
    println!("cargo:rerun-if-changed={}", archive.display());
    if !archive.is_file() {
        say_what_is_missing(&archive);
        exit(1);
    }
    println!("cargo:rustc-link-search=native={}", folder.display());
    println!("cargo:rustc-link-lib=static=kitesonnet");
}

fn say_what_is_missing(archive: &Path) {
    eprintln!("There is no proved archive {}.", archive.display());
    eprintln!("Either run `rt lib` in the folder crates/kitesonnet of the project, which proves and writes it,");
    eprintln!("or set {NAMED_BY} to the full path of the folder that holds {ARCHIVE}.");
}
