//! Links the archive that `tools/staticlib exports_estimate` makes, from ZEBUMORN_LIB or the repository's target/staticlib.
use std::env;
use std::path::{Path, PathBuf};

fn main() {
    println!("cargo:rerun-if-env-changed=ZEBUMORN_LIB");
    let folder = env::var_os("ZEBUMORN_LIB").map_or_else(default_folder, PathBuf::from);
    let archive = folder.join("libexports_estimate.a");
    println!("cargo:rerun-if-changed={}", archive.display());
    assert!(
        archive.is_file(),
        "{} is missing: make it with `tools/staticlib exports_estimate`, or name its folder in ZEBUMORN_LIB",
        archive.display()
    );
    println!("cargo:rustc-link-search=native={}", folder.display());
    println!("cargo:rustc-link-lib=static=exports_estimate");
    println!("cargo:rustc-link-lib=m");
}

fn default_folder() -> PathBuf {
    let here = env::var_os("CARGO_MANIFEST_DIR").expect("cargo names the package's folder");
    Path::new(&here).join("../../target/staticlib")
}
