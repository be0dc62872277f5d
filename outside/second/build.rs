//! With the feature `library`: links `compare` with the static library whose path stands in
//! SZALWINEK_LIB, absolute or from this folder.

use std::env;
use std::fs;

fn main() {
    println!("cargo:rerun-if-changed=build.rs");
    println!("cargo:rerun-if-env-changed=SZALWINEK_LIB");
    if env::var_os("CARGO_FEATURE_LIBRARY").is_none() {
        return;
    }
    let named = env::var("SZALWINEK_LIB").expect("SZALWINEK_LIB names the static library");
    let path = fs::canonicalize(&named).expect("SZALWINEK_LIB names a file");
    println!("cargo:rerun-if-changed={}", path.display());
    println!("cargo:rustc-link-arg-bin=compare={}", path.display());
    // A library for firmware brings its own panic handler; here std's stands for both.
    println!("cargo:rustc-link-arg-bin=compare=-Wl,--allow-multiple-definition");
}
