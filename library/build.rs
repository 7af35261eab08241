//! Links the proved library, libfelgotany.a: from the folder that FELGOTANY_LIBRARY names, else from where tools/native-library
//! writes it.

use std::path::PathBuf;

fn main() {
    let named = std::env::var_os("FELGOTANY_LIBRARY").map(PathBuf::from);
    let folder = named.unwrap_or_else(|| concat!(env!("CARGO_MANIFEST_DIR"), "/../target/staticlib").into());
    println!("cargo:rerun-if-env-changed=FELGOTANY_LIBRARY");
    println!("cargo:rerun-if-changed={}", folder.join("libfelgotany.a").display());
    println!("cargo:rustc-link-search=native={}", folder.display());
    // linked to a program at its end, so that what does not ask the library is built without it
    println!("cargo:rustc-link-lib=static:-bundle=felgotany");
}
