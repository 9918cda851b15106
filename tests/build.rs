//! Links the static library that the proofs were made for. It is built beforehand, never from here, so that
//! the tests cannot hide a library that was not proved.

use std::env;
use std::path::PathBuf;

fn main() {
    let package = env::var("CARGO_MANIFEST_DIR").expect("cargo names the package's folder");
    let folder = PathBuf::from(package).join("../target/staticlib");
    let archive = folder.join("liboutside.a");
    println!("cargo:rerun-if-changed=build.rs");
    println!("cargo:rerun-if-changed={}", archive.display());
    if !archive.exists() {
        panic!(
            "target/staticlib/liboutside.a is missing: run `bash tools/build.sh` first"
        );
    }
    println!("cargo:rustc-link-search=native={}", folder.display());
    println!("cargo:rustc-link-lib=static=outside");
}
