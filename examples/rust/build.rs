//! Links dist/libcertpath.a of the repository, or the library in the folder CERTPATH_LIB_DIR.
use std::env;
use std::path::PathBuf;

fn main() {
    println!("cargo:rerun-if-env-changed=CERTPATH_LIB_DIR");
    let own = PathBuf::from(env::var("CARGO_MANIFEST_DIR").unwrap()).join("../../dist");
    let folder = env::var_os("CERTPATH_LIB_DIR").map_or(own, PathBuf::from);
    println!("cargo:rustc-link-search=native={}", folder.display());
    println!("cargo:rustc-link-lib=static=certpath");
    println!(
        "cargo:rerun-if-changed={}",
        folder.join("libcertpath.a").display()
    );
}
