//! Links the static library of the kernels, which `rt lib` makes in crates/kernel_exports.

use std::env;
use std::path::PathBuf;

fn main() {
    let here = PathBuf::from(env::var_os("CARGO_MANIFEST_DIR").expect("cargo sets it"));
    let library = here.join("../crates/kernel_exports/out/libkernel_exports.a");
    if !library.exists() {
        panic!("{} is missing: see bench/README.md", library.display());
    }
    let folder = library.parent().expect("the file lies in a folder");
    println!("cargo:rerun-if-changed={}", library.display());
    println!("cargo:rustc-link-search=native={}", folder.display());
    println!("cargo:rustc-link-lib=static=kernel_exports");
}
