//! Links libexports.a: from the folder in ZAGVIRK_LIB_DIR, or else from target/staticlib of the repository.

use std::env;
use std::path::{Path, PathBuf};

fn main() {
    println!("cargo:rerun-if-env-changed=ZAGVIRK_LIB_DIR");
    let folder = match env::var_os("ZAGVIRK_LIB_DIR") {
        Some(folder) => PathBuf::from(folder),
        None => {
            let manifest = env::var_os("CARGO_MANIFEST_DIR").expect("set by cargo");
            Path::new(&manifest).join("../../target/staticlib")
        }
    };
    let archive = folder.join("libexports.a");
    println!("cargo:rerun-if-changed={}", archive.display());
    if !archive.is_file() {
        panic!(
            "{} is not there: make it with `tools/built library`, or set ZAGVIRK_LIB_DIR to its folder",
            archive.display()
        );
    }
    let folder = folder.canonicalize().expect("the folder of the archive");
    println!("cargo:rustc-link-search=native={}", folder.display());
    println!("cargo:rustc-link-lib=static=exports");
    // For the build scripts of crates that depend on this one: DEP_EXPORTS_FOLDER.
    println!("cargo:folder={}", folder.display());
}
