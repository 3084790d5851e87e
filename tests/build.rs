//! Tells the linker where the archive of the library stands.

use std::env;
use std::path::PathBuf;

fn main() {
    println!("cargo:rerun-if-changed=build.rs");
    if env::var_os("CARGO_FEATURE_LIBRARY").is_none() {
        return;
    }
    let manifest = PathBuf::from(env::var_os("CARGO_MANIFEST_DIR").expect("cargo names the manifest directory"));
    let place = manifest.join("../crates/tollgutter/out");
    println!("cargo:rustc-link-search=native={}", place.display());
    println!("cargo:rustc-link-lib=static=tollgutter");
    println!("cargo:rerun-if-changed={}", place.join("libtollgutter.a").display());
}
