//! Links libswitch.a and libsheet.a into the two binaries.

use std::env;
use std::path::PathBuf;

fn main() {
    println!("cargo:rerun-if-env-changed=SWITCH_LIB");
    println!("cargo:rerun-if-changed=build.rs");
    for name in ["libswitch.a", "libsheet.a"] {
        let library = folder().join(name);
        println!("cargo:rerun-if-changed={}", library.display());
        if !library.exists() {
            println!("cargo:warning=no {} (set SWITCH_LIB)", library.display());
        }
        // The archive is named in full: no other of its name can be found in
        // its place, and the unit tests, which need none, are not given it.
        println!("cargo:rustc-link-arg-bins={}", library.display());
    }
}

fn folder() -> PathBuf {
    let here = PathBuf::from(env::var_os("CARGO_MANIFEST_DIR").expect("cargo sets it"));
    match env::var_os("SWITCH_LIB") {
        Some(folder) => here.join(folder),
        None => here.join("../target/staticlib"),
    }
}
