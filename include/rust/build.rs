//! Links the archive that `rt lib` writes in crates/tewhoranu: TEWHORANU_LIB names its folder where it is not this repository's
//! crates/tewhoranu/out. With the feature `source` nothing is linked: portable/make writes the proved source as Rust.

use std::env;
use std::fs;
use std::path::{Path, PathBuf};
use std::process::Command;

fn link(root: &Path) {
    let folder = match env::var_os("TEWHORANU_LIB") {
        Some(folder) => PathBuf::from(folder),
        None => root.join("crates/tewhoranu/out"),
    };
    println!("cargo:rerun-if-env-changed=TEWHORANU_LIB");
    println!("cargo:rerun-if-changed={}", folder.join("libtewhoranu.a").display());
    println!("cargo:rustc-link-search=native={}", folder.display());
    println!("cargo:rustc-link-lib=static=tewhoranu");
}

fn make(root: &Path) {
    // what the kit builds stands beside a crate's source, and changes nothing here
    let crates = fs::read_dir(root.join("crates")).into_iter().flatten().flatten().map(|entry| entry.path().join("src"));
    let crates = crates.filter(|source| source.is_dir());
    for part in crates.chain(["crates.txt", "portable"].map(|part| root.join(part))) {
        println!("cargo:rerun-if-changed={}", part.display());
    }
    let package = PathBuf::from(env::var_os("OUT_DIR").expect("cargo sets it")).join("package");
    let made = Command::new("python3").arg(root.join("portable/make")).arg(package).status();
    if !made.is_ok_and(|status| status.success()) {
        panic!("the feature `source` needs python3 and the whole repository; a package that portable/make wrote needs neither");
    }
}

fn main() {
    let root = PathBuf::from(env::var_os("CARGO_MANIFEST_DIR").expect("cargo sets it")).join("../..");
    if env::var_os("CARGO_FEATURE_SOURCE").is_some() {
        make(&root);
    } else {
        link(&root);
    }
}
