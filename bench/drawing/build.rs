//! Links an earlier library beside this one, if `TAKWISHAN_BEFORE` names it: a copy whose names have `before_` before them.
use std::path::{Path, PathBuf};
use std::process::Command;

/// What the command prints.
fn output(command: &mut Command) -> String {
    let said = command.output().unwrap_or_else(|error| panic!("{command:?}: {error}"));
    assert!(
        said.status.success(),
        "{command:?}: {}",
        String::from_utf8_lossy(&said.stderr)
    );
    String::from_utf8(said.stdout).expect("names are text")
}

/// The names that others can link, one and its new one in a line. Those that the library asks for from others stay as they are.
fn renaming(archive: &Path) -> String {
    let listed = output(
        Command::new("nm")
            .args(["--defined-only", "--extern-only", "--format=just-symbols"])
            .arg(archive),
    );
    let names = listed.lines().filter(|line| !line.is_empty() && !line.ends_with(':'));
    names.map(|name| format!("{name} before_{name}\n")).collect()
}

/// The wrapper's calls of the library, by the new names: what is unsafe stands there and nowhere else. (A file that is taken into a
/// module cannot begin with a comment for that module.)
fn calls(wrapper: &Path) -> String {
    let text = std::fs::read_to_string(wrapper).expect("the wrapper stands in the repository");
    let lines = text.lines().filter(|line| !line.starts_with("//!"));
    lines
        .map(|line| line.replace("takwishan_", "before_takwishan_") + "\n")
        .collect()
}

fn main() {
    println!("cargo:rustc-check-cfg=cfg(before)");
    println!("cargo:rerun-if-changed=build.rs");
    println!("cargo:rerun-if-env-changed=TAKWISHAN_BEFORE");
    let Some(archive) = std::env::var_os("TAKWISHAN_BEFORE").map(PathBuf::from) else {
        return;
    };
    println!("cargo:rerun-if-changed={}", archive.display());
    let folder = PathBuf::from(std::env::var_os("OUT_DIR").expect("cargo sets it"));
    let names = folder.join("names");
    std::fs::write(&names, renaming(&archive)).expect("the folder can be written");
    output(
        Command::new("objcopy")
            .arg("--redefine-syms")
            .args([&names, &archive, &folder.join("libbefore.a")]),
    );
    let wrapper = Path::new("../../rust/src/linked.rs");
    println!("cargo:rerun-if-changed={}", wrapper.display());
    std::fs::write(folder.join("linked.rs"), calls(wrapper)).expect("the folder can be written");
    println!("cargo:rustc-link-search=native={}", folder.display());
    println!("cargo:rustc-link-lib=static=before");
    println!("cargo:rustc-cfg=before");
}
