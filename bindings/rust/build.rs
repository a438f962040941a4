//! Links target/staticlib/libwintabol.a, which tools/static_library.sh makes, or the archive in the folder that WINTABOL_LIB names.

use std::env;
use std::path::PathBuf;

fn main() {
    let folder = match env::var("WINTABOL_LIB") {
        Ok(folder) => PathBuf::from(folder),
        Err(_) => PathBuf::from(env::var("CARGO_MANIFEST_DIR").unwrap()).join("../../target/staticlib"),
    };
    println!("cargo:rerun-if-env-changed=WINTABOL_LIB");
    println!("cargo:rerun-if-changed={}", folder.join("libwintabol.a").display());
    println!("cargo:rustc-link-search=native={}", folder.display());
    println!("cargo:rustc-link-lib=static=wintabol");
}
