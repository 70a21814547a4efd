//! Links the library under test when its folder is named; otherwise the comparison is left out.

use std::env;

fn main() {
    println!("cargo:rustc-check-cfg=cfg(library)");
    println!("cargo:rerun-if-env-changed=KLUMAVEC_LIB");
    println!("cargo:rerun-if-changed=build.rs");
    if let Ok(folder) = env::var("KLUMAVEC_LIB") {
        println!("cargo:rerun-if-changed={folder}/libgateway.a");
        println!("cargo:rustc-link-search=native={folder}");
        println!("cargo:rustc-link-lib=static=gateway");
        println!("cargo:rustc-cfg=library");
    }
}
