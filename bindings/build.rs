//! Links libiarwennol.a, from the folder that IARWENNOL_LIB names or else from ../target/staticlib.

use std::path::PathBuf;

fn main() {
    println!("cargo::rerun-if-env-changed=IARWENNOL_LIB");
    let here = PathBuf::from(std::env::var_os("CARGO_MANIFEST_DIR").expect("cargo says where this crate stands"));
    // A folder that is not absolute is taken from this crate's own.
    let folder = here.join(std::env::var_os("IARWENNOL_LIB").unwrap_or("../target/staticlib".into()));
    let library = folder.join("libiarwennol.a");
    if !library.is_file() {
        println!(
            "cargo::error=no {}: make it with `tests/staticlib`, or name its folder in IARWENNOL_LIB",
            library.display()
        );
        return;
    }
    println!("cargo::rerun-if-changed={}", library.display());
    println!("cargo::rustc-link-search=native={}", folder.display());
    println!("cargo::rustc-link-lib=static=iarwennol");
}
