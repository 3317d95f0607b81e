//! Links the program with the static library of `bindings`. Tests don't link it, so where it is missing is only a warning.

use std::path::PathBuf;

fn main() {
    let package = PathBuf::from(std::env::var("CARGO_MANIFEST_DIR").expect("cargo sets it"));
    let root = package.parent().expect("compare/ stands in the repository");
    let bindings = root.join("crates").join("bindings").join("out").join("libbindings.a");
    println!("cargo:rerun-if-changed=build.rs");
    println!("cargo:rerun-if-changed={}", bindings.display());
    if bindings.is_file() {
        println!("cargo:rustc-link-arg-bins={}", bindings.display());
    } else {
        println!("cargo:warning=no static library; make it by `rt lib` in crates/bindings (tests do without)");
    }
}
