//! Links the kernel's static library, which `rt lib` makes in crates/exports.

use std::env;
use std::path::PathBuf;

fn main() {
    let package = PathBuf::from(env::var_os("CARGO_MANIFEST_DIR").expect("cargo sets it"));
    let library = package.join("../crates/exports/out");
    println!("cargo:rustc-link-search=native={}", library.display());
    println!("cargo:rustc-link-lib=static=exports");
    println!(
        "cargo:rerun-if-changed={}",
        library.join("libexports.a").display()
    );
}
