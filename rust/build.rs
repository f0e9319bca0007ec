//! Links libvizhuthamen.a from the folder $VIZHUTHAMEN_LIB, or from ../target/staticlib.
use std::env;
use std::path::PathBuf;
use std::process;

fn main() {
    println!("cargo:rerun-if-env-changed=VIZHUTHAMEN_LIB");
    let folder = match env::var_os("VIZHUTHAMEN_LIB") {
        Some(folder) => PathBuf::from(folder),
        None => PathBuf::from(env::var_os("CARGO_MANIFEST_DIR").unwrap_or_default()).join("../target/staticlib"),
    };
    let archive = folder.join("libvizhuthamen.a");
    println!("cargo:rerun-if-changed={}", archive.display());
    if !archive.is_file() {
        eprintln!("{} is not there; in the repository's root run: tools/library", archive.display());
        eprintln!("(or set VIZHUTHAMEN_LIB to the folder that holds libvizhuthamen.a)");
        process::exit(1);
    }
    println!("cargo:rustc-link-search=native={}", folder.display());
    println!("cargo:rustc-link-lib=static=vizhuthamen");
}
