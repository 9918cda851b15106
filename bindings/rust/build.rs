//! Links the proved static library. `bash tools/build.sh` builds it beforehand; it is never built from here. The environment
//! variable `KIN_ARCHIVE` names it, by its whole path, if it lies elsewhere.

use std::env;
use std::path::{Path, PathBuf};

fn main() {
    println!("cargo:rerun-if-changed=build.rs");
    println!("cargo:rerun-if-env-changed=KIN_ARCHIVE");
    let archive = env::var_os("KIN_ARCHIVE").map_or_else(archive_of_this_house, PathBuf::from);
    assert!(
        archive.is_file(),
        "{} is missing: run `bash tools/build.sh` first, or name the archive by KIN_ARCHIVE",
        archive.display()
    );
    println!("cargo:rerun-if-changed={}", archive.display());
    link(&archive);
}

fn archive_of_this_house() -> PathBuf {
    let package = env::var_os("CARGO_MANIFEST_DIR").expect("cargo names the package's folder");
    Path::new(&package).join("../../target/staticlib/liboutside.a")
}

/// Links the archive whatever its name is.
fn link(archive: &Path) {
    let folder = archive.parent().expect("a file lies in a folder");
    let name = archive.file_name().expect("a file has a name");
    println!("cargo:rustc-link-search=native={}", folder.display());
    println!(
        "cargo:rustc-link-lib=static:+verbatim={}",
        name.to_string_lossy()
    );
}
