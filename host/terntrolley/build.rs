//! Finds libterntrolley.a: in the folder that TERNTROLLEY_LIB_DIR names, or where `tools/build terntrolley` writes it.
use std::env;
use std::path::{Path, PathBuf};
use std::process::exit;

const LIBRARY: &str = "libterntrolley.a";

fn library_folder() -> PathBuf {
    match env::var_os("TERNTROLLEY_LIB_DIR") {
        Some(folder) => PathBuf::from(folder),
        None => Path::new(env!("CARGO_MANIFEST_DIR")).join("../../crates/terntrolley/out"),
    }
}

fn main() {
    let folder = library_folder();
    let library = folder.join(LIBRARY);
    println!("cargo::rerun-if-env-changed=TERNTROLLEY_LIB_DIR");
    println!("cargo::rerun-if-changed={}", library.display());
    if !library.is_file() {
        println!(
            "cargo::error={} isn't there: run `tools/build terntrolley` in the repository's root, \
             or set TERNTROLLEY_LIB_DIR to the folder that has {LIBRARY}",
            library.display()
        );
        exit(1);
    }
    println!("cargo::rustc-link-search=native={}", folder.display());
    println!("cargo::rustc-link-lib=static=terntrolley");
}
