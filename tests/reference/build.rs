//! With the feature `library`: where the library is that tests/compare links.

use std::env;
use std::path::PathBuf;

fn main() {
    println!("cargo:rerun-if-changed=build.rs");
    println!("cargo:rerun-if-env-changed=SISA_LIB_DIR");
    if env::var_os("CARGO_FEATURE_LIBRARY").is_none() {
        return;
    }
    let package = PathBuf::from(env::var_os("CARGO_MANIFEST_DIR").unwrap_or_default());
    let chosen = env::var_os("SISA_LIB_DIR").unwrap_or("../../target/staticlib".into());
    let dir = package.join(chosen);
    let library = dir.join("libsisa.a");
    assert!(
        library.is_file(),
        "{} is missing: build it or name its folder in SISA_LIB_DIR",
        library.display()
    );
    // A library built anew is linked anew.
    println!("cargo:rerun-if-changed={}", library.display());
    println!("cargo:rustc-link-search=native={}", dir.display());
}
