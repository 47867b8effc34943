//! Links libcuelink.a, which `make -C cuelink` makes in the repository's cuelink/build. CUELINK_LIB_DIR names another folder. A changed archive is
//! linked anew.
use std::{env, path::PathBuf};

fn main() {
    println!("cargo:rerun-if-env-changed=CUELINK_LIB_DIR");
    let here = PathBuf::from(env::var("CARGO_MANIFEST_DIR").unwrap());
    let folder = match env::var("CUELINK_LIB_DIR") {
        Ok(folder) => PathBuf::from(folder),
        Err(_) => here.join("../build"),
    };
    let archive = folder.join("libcuelink.a");
    println!("cargo:rerun-if-changed={}", archive.display());
    if !archive.exists() {
        println!(
            "cargo:warning={} is not there: `make -C cuelink` builds it, or CUELINK_LIB_DIR names the folder that has it",
            archive.display()
        );
    }
    println!("cargo:rustc-link-search=native={}", folder.display());
    println!("cargo:rustc-link-lib=static=cuelink");
}
