//! Links the proved library, which `make lib` writes.
use std::path::PathBuf;

fn main() {
    let here = PathBuf::from(std::env::var("CARGO_MANIFEST_DIR").expect("cargo sets it"));
    let root = here.parent().expect("rust/ stands in the repository");
    let folder = root.join("target/lib");
    let archive = folder.join("libtakwishan.a");
    if !archive.is_file() {
        panic!(
            "{} is missing: run `make lib` in the repository's root",
            archive.display()
        );
    }
    println!("cargo:rerun-if-changed={}", archive.display());
    println!("cargo:rerun-if-env-changed=CARGO_MANIFEST_DIR");
    println!("cargo:rustc-link-search=native={}", folder.display());
    println!("cargo:rustc-link-lib=static=takwishan");
}
