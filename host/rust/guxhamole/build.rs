//! Links the compiled, proved functions: target/staticlib/libcapi.a at the repository's top, or in the directory that
//! the environment variable GUXHAMOLE_STATICLIB names.

use std::path::PathBuf;
use std::{env, process};

fn main() {
    println!("cargo:rerun-if-env-changed=GUXHAMOLE_STATICLIB");
    let directory = match env::var_os("GUXHAMOLE_STATICLIB") {
        Some(directory) => PathBuf::from(directory),
        None => {
            let here = env::var_os("CARGO_MANIFEST_DIR").unwrap_or_default();
            PathBuf::from(here).join("../../../target/staticlib")
        }
    };
    let archive = directory.join("libcapi.a");
    println!("cargo:rerun-if-changed={}", archive.display());
    if !archive.exists() {
        eprintln!("there is no {}: run `tools/build`", archive.display());
        process::exit(1);
    }
    println!("cargo:rustc-link-search=native={}", directory.display());
    println!("cargo:rustc-link-lib=static=capi");
}
