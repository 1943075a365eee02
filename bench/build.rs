// Hands the static library to the benchmark, which calls it without a process between.
// NOCTELVIA_LIB names its folder (`run` sets it); the library there must be for this machine.

use std::env;
use std::path::{Path, PathBuf};
use std::process::Command;

/// Whether the library has a function of that name, as nm lists it.
fn has(library: &Path, name: &str) -> bool {
    let listed = Command::new("nm").arg(library).output();
    let defined = format!(" T {name}");
    listed.is_ok_and(|listed| String::from_utf8_lossy(&listed.stdout).lines().any(|line| line.ends_with(&defined)))
}

fn main() {
    println!("cargo:rerun-if-env-changed=NOCTELVIA_LIB");
    let folder = PathBuf::from(env::var("NOCTELVIA_LIB").expect("bench/run sets NOCTELVIA_LIB"));
    let library = folder.join("libeditor.a");
    println!("cargo:rerun-if-changed={}", library.display());
    println!("cargo:rustc-link-arg-bins={}", library.display());
    println!("cargo:rustc-check-cfg=cfg(plan_list)");
    if has(&library, "noctelvia_plan_list") {
        println!("cargo:rustc-cfg=plan_list");
    }
}
