//! Compiles the model's sources with the C++ compiler that CXX names, else g++.
use std::env;
use std::path::PathBuf;
use std::process::Command;

const SOURCES: &[&str] = &["model.cpp", "header.cpp", "header_back.cpp", "list.cpp", "wav.cpp", "stereo.cpp", "line.cpp"];

fn run(command: &mut Command) {
    let status = command.status().unwrap_or_else(|e| panic!("{command:?}: {e}"));
    assert!(status.success(), "{command:?}: {status}");
}

fn main() {
    println!("cargo:rerun-if-env-changed=CXX");
    let out = PathBuf::from(env::var_os("OUT_DIR").expect("cargo sets OUT_DIR"));
    let cxx = env::var("CXX").unwrap_or_else(|_| "g++".into());
    let library = out.join("libhcamodel.a");
    let _ = std::fs::remove_file(&library);
    for source in SOURCES {
        println!("cargo:rerun-if-changed={source}");
        let object = out.join(source).with_extension("o");
        // each float operation is rounded once: nothing may be fused
        run(Command::new(&cxx)
            .args(["-std=c++17", "-O2", "-Wall", "-Wextra", "-ffp-contract=off", "-fno-exceptions", "-fPIC", "-c", source, "-o"])
            .arg(&object));
        run(Command::new("ar").arg("rcs").arg(&library).arg(&object));
    }
    println!("cargo:rustc-link-search=native={}", out.display());
    println!("cargo:rustc-link-lib=static=hcamodel");
}
