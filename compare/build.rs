//! Says where the proved library is: in `target/staticlib`, where `tools/staticlib` writes it, or in the folder that
//! `COMPARE_LIB_DIR` names.

use std::env;
use std::path::PathBuf;

fn main() {
    println!("cargo:rerun-if-env-changed=COMPARE_LIB_DIR");
    let named = env::var_os("COMPARE_LIB_DIR").map(PathBuf::from);
    let default = PathBuf::from(env::var_os("CARGO_MANIFEST_DIR").unwrap_or_default()).join("../target/staticlib");
    let folder = named.unwrap_or(default);
    println!("cargo:rustc-link-search=native={}", folder.display());
    println!("cargo:rerun-if-changed={}", folder.join("libcapi.a").display());
}
