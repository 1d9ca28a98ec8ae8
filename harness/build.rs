//! Links the archive that `tools/harness archive` writes: ../target/staticlib, or the folder that BARNSHIVER_LIB names.
//! With the feature `standin` nothing is linked.

use std::env;
use std::path::PathBuf;

fn main() {
    println!("cargo:rerun-if-changed=build.rs");
    println!("cargo:rerun-if-env-changed=BARNSHIVER_LIB");
    if env::var_os("CARGO_FEATURE_STANDIN").is_some() {
        return;
    }
    let here = PathBuf::from(env::var_os("CARGO_MANIFEST_DIR").expect("cargo sets it"));
    let folder = match env::var_os("BARNSHIVER_LIB") {
        Some(folder) => PathBuf::from(folder),
        None => here.join("../target/staticlib"),
    };
    let archive = folder.join("libexports.a");
    if !archive.is_file() {
        panic!(
            "{} is not there: run `tools/harness archive` first",
            archive.display()
        );
    }
    println!("cargo:rerun-if-changed={}", archive.display());
    println!("cargo:rustc-link-search=native={}", folder.display());
    println!("cargo:rustc-link-lib=static=exports");
}
