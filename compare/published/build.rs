//! Says what to do where the test copy of the Rust is missing.
use std::path::Path;

fn main() {
    for name in ["bitreader", "decoder", "encoder", "limited", "tables", "wav_samples"] {
        let file = format!("src/hca/{name}.rs");
        println!("cargo:rerun-if-changed={file}");
        assert!(Path::new(&file).is_file(), "{file} is not there: run `sh import.sh` in compare/ first");
    }
}
