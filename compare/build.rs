//! Where the static libraries of the proved program stand.

use std::env;
use std::path::PathBuf;

fn main() {
    let here = PathBuf::from(env::var("CARGO_MANIFEST_DIR").expect("cargo sets it"));
    println!("cargo::rerun-if-env-changed=PROVED_LIB");
    // Each is one object in which nothing but its entries has a global name.
    for library in ["desk", "shapes"] {
        let folder = match env::var("PROVED_LIB") {
            Ok(folder) => PathBuf::from(folder),
            Err(_) => here.join(format!("../crates/{library}/out")),
        };
        println!("cargo::rustc-link-search=native={}", folder.display());
        println!("cargo::rustc-link-lib=static={library}");
        let file = folder.join(format!("lib{library}.a"));
        println!("cargo::rerun-if-changed={}", file.display());
    }
}
