//! Links libmib.a: the one in the folder that MIB_LIBRARY_DIR names, or the repository's.

use std::env;
use std::path::PathBuf;
use std::process::exit;

fn main() {
    println!("cargo:rerun-if-env-changed=MIB_LIBRARY_DIR");
    let folder = match env::var_os("MIB_LIBRARY_DIR") {
        Some(folder) => PathBuf::from(folder),
        None => {
            let package = env::var_os("CARGO_MANIFEST_DIR").expect("cargo sets CARGO_MANIFEST_DIR");
            PathBuf::from(package).join("../../target/staticlib")
        }
    };
    let archive = folder.join("libmib.a");
    println!("cargo:rerun-if-changed={}", archive.display());
    if !archive.is_file() {
        eprintln!(
            "mib: {} is missing. Run `tools/staticlib` in the repository, which writes it to target/staticlib, \
             or set MIB_LIBRARY_DIR to the folder that holds libmib.a.",
            archive.display()
        );
        exit(1);
    }
    println!("cargo:rustc-link-search=native={}", folder.display());
    println!("cargo:rustc-link-lib=static=mib");
}
