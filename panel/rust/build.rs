//! Links libpanel.a, which `make -C panel` makes in the repository's panel/build. PANEL_LIB_DIR names another folder.
use std::{env, path::PathBuf};

fn main() {
    println!("cargo:rerun-if-env-changed=PANEL_LIB_DIR");
    let here = PathBuf::from(env::var("CARGO_MANIFEST_DIR").unwrap());
    let folder = match env::var("PANEL_LIB_DIR") {
        Ok(folder) => PathBuf::from(folder),
        Err(_) => here.join("../build"),
    };
    println!(
        "cargo:rerun-if-changed={}",
        folder.join("libpanel.a").display()
    );
    println!("cargo:rustc-link-search=native={}", folder.display());
    println!("cargo:rustc-link-lib=static=panel");
}
