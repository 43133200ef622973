//! Links the proved functions: `rt lib` in ../../crates/exports writes out/libexports.a there.

use std::path::Path;

fn main() {
    let here = std::env::var("CARGO_MANIFEST_DIR").expect("cargo says where the package is");
    let folder = Path::new(&here).join("../../crates/exports/out");
    println!("cargo:rustc-link-search=native={}", folder.display());
    println!("cargo:rustc-link-lib=static=exports");
    println!(
        "cargo:rerun-if-changed={}",
        folder.join("libexports.a").display()
    );
}
