//! Links libgateway.a, from the folder that KLUMAVEC_LIB names.
fn main() {
    let folder = std::env::var("KLUMAVEC_LIB").expect("KLUMAVEC_LIB names the folder of libgateway.a");
    println!("cargo:rustc-link-search=native={folder}");
    println!("cargo:rustc-link-lib=static=gateway");
    println!("cargo:rerun-if-changed={folder}/libgateway.a");
    println!("cargo:rerun-if-env-changed=KLUMAVEC_LIB");
}
