//! Links the static libraries that tools/archives.sh builds: from the folder $HINTZOBAR_LIB, or else target/staticlib of the repository.
use std::{env, path::PathBuf};

fn main() {
    println!("cargo:rerun-if-env-changed=HINTZOBAR_LIB");
    let here = PathBuf::from(env::var("CARGO_MANIFEST_DIR").unwrap());
    let folder = match env::var("HINTZOBAR_LIB") {
        Ok(folder) => PathBuf::from(folder),
        Err(_) => here.join("../target/staticlib"),
    };
    println!("cargo:rustc-link-search=native={}", folder.display());
    for name in ["known", "capi"] {
        let archive = folder.join(format!("lib{name}.a"));
        println!("cargo:rerun-if-changed={}", archive.display());
        if !archive.exists() {
            println!("cargo:warning={} is not there: run tools/archives.sh in the repository first", archive.display());
        }
        println!("cargo:rustc-link-lib=static={name}");
    }
}
