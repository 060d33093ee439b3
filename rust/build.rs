//! Links libhca.a from the folder HCA_LIB_DIR, else from ../target/library.
use std::env;
use std::path::PathBuf;

fn main() {
    println!("cargo:rerun-if-env-changed=HCA_LIB_DIR");
    let here = PathBuf::from(env::var_os("CARGO_MANIFEST_DIR").expect("cargo sets CARGO_MANIFEST_DIR"));
    let folder = match env::var_os("HCA_LIB_DIR") {
        Some(given) => PathBuf::from(given),
        None => here.join("../target/library"),
    };
    let library = folder.join("libhca.a");
    println!("cargo:rerun-if-changed={}", library.display());
    if !library.is_file() {
        panic!(
            "{} is not there: build it with `sh scripts/library.sh`, or set HCA_LIB_DIR to its folder (an absolute path)",
            library.display()
        );
    }
    println!("cargo:rustc-link-search=native={}", folder.display());
    println!("cargo:rustc-link-lib=static=hca");
}
