//! Links the library's archive, libamseokbin.a, from the folder that AMSEOKBIN_LIB names or from ../../target/staticlib.

use std::env;
use std::path::{Path, PathBuf};
use std::process::exit;

fn main() {
    println!("cargo:rerun-if-env-changed=AMSEOKBIN_LIB");
    if env::var_os("CARGO_FEATURE_SELF_TEST").is_some() {
        return;
    }
    let package = env::var_os("CARGO_MANIFEST_DIR").expect("cargo sets CARGO_MANIFEST_DIR");
    let folder = match env::var_os("AMSEOKBIN_LIB") {
        Some(folder) => PathBuf::from(folder),
        None => Path::new(&package).join("../../target/staticlib"),
    };
    let archive = folder.join("libamseokbin.a");
    println!("cargo:rerun-if-changed={}", archive.display());
    if !archive.is_file() {
        eprintln!("error: {} is not there", archive.display());
        eprintln!("Make it with `tools/archive amseokbin`, or name its folder in AMSEOKBIN_LIB.");
        exit(1);
    }
    println!("cargo:rustc-link-search=native={}", folder.display());
    println!("cargo:rustc-link-lib=static=amseokbin");
}
