// Links the proved libraries: that of the readers, which `tools/prove bench_lib` writes, and that of `make lib`.
use std::path::{Path, PathBuf};

fn link(folder: &Path, library: &str, how: &str) {
    let archive = folder.join(format!("lib{library}.a"));
    if !archive.is_file() {
        panic!(
            "{} is missing: run `{how}` in the repository's root",
            archive.display()
        );
    }
    println!("cargo:rerun-if-changed={}", archive.display());
    println!("cargo:rustc-link-search=native={}", folder.display());
    println!("cargo:rustc-link-lib=static={library}");
}

fn main() {
    let here = PathBuf::from(std::env::var("CARGO_MANIFEST_DIR").expect("cargo sets it"));
    let root = here.parent().expect("bench/ stands in the repository");
    println!("cargo:rerun-if-env-changed=CARGO_MANIFEST_DIR");
    link(
        &root.join("crates/bench_lib/out"),
        "bench_lib",
        "tools/prove bench_lib",
    );
    link(&root.join("target/lib"), "takwishan", "make lib");
}
