//! Where libsisa.a is; `tools/staticlib` builds it.

fn main() {
    let package = std::env::var("CARGO_MANIFEST_DIR").unwrap_or_default();
    println!("cargo:rerun-if-changed={package}/../../target/staticlib/libsisa.a");
    println!("cargo:rustc-link-search=native={package}/../../target/staticlib");
}
