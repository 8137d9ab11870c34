//! Links the proved routines: the static archives in the folder that PUNTARYS_LIB names.
use std::env;
use std::path::PathBuf;

const ARCHIVES: [&str; 2] = ["service", "planner"];

fn main() {
    println!("cargo:rerun-if-env-changed=PUNTARYS_LIB");
    let here = PathBuf::from(env::var("CARGO_MANIFEST_DIR").unwrap());
    let folder = match env::var("PUNTARYS_LIB") {
        Ok(named) => PathBuf::from(named),
        Err(_) => here.join("../target/staticlib"),
    };
    println!("cargo:rustc-link-search=native={}", folder.display());
    for name in ARCHIVES {
        let file = folder.join(format!("lib{name}.a"));
        println!("cargo:rerun-if-changed={}", file.display());
        println!("cargo:rustc-link-lib=static={name}");
    }
}
