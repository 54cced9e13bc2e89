//! Links the static libraries: from the folder FLAT_LIB_DIR names, or each from
//! the out/ of its crate, where rt builds it.

use std::env;
use std::path::PathBuf;

fn main() {
    let crates =
        PathBuf::from(env::var_os("CARGO_MANIFEST_DIR").expect("set by cargo")).join("../../crates");
    for library in ["flat", "host"] {
        let folder = match env::var_os("FLAT_LIB_DIR") {
            Some(folder) => PathBuf::from(folder),
            None => crates.join(library).join("out"),
        };
        println!("cargo:rustc-link-search=native={}", folder.display());
        println!("cargo:rustc-link-lib=static={library}");
        let file = folder.join(format!("lib{library}.a"));
        println!("cargo:rerun-if-changed={}", file.display());
    }
    println!("cargo:rerun-if-env-changed=FLAT_LIB_DIR");
    println!("cargo:rerun-if-changed=build.rs");
}
