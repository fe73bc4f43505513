//! Links the proved archive, which `scripts/archive` builds, and the archive of an earlier commit where
//! `bench/before` names one.

use std::env;
use std::path::{Path, PathBuf};
use std::process::{exit, Command};

fn link(folder: &Path, name: &str) {
    println!("cargo:rustc-link-search=native={}", folder.display());
    println!("cargo:rustc-link-lib=static={name}");
    let archive = folder.join(format!("lib{name}.a"));
    println!("cargo:rerun-if-changed={}", archive.display());
}

/// Ends the build where the archive isn't made from the crates as they are.
fn refuse_stale(top: &Path) {
    for name in [
        "crates",
        "crates.txt",
        "scripts",
        "target/staticlib/libcapi.a.made-from",
    ] {
        println!("cargo:rerun-if-changed={}", top.join(name).display());
    }
    let checked = Command::new("bash").arg(top.join("scripts/fresh")).status();
    if !checked.is_ok_and(|status| status.success()) {
        exit(1);
    }
}

fn main() {
    let bench = PathBuf::from(env::var("CARGO_MANIFEST_DIR").expect("cargo sets it"));
    let top = bench.join("..");
    refuse_stale(&top);
    link(&top.join("target/staticlib"), "capi");
    println!("cargo:rustc-check-cfg=cfg(before, before_take_many)");
    println!("cargo:rustc-check-cfg=cfg(before_windows, values(\"one\", \"two\"))");
    if let Ok(folder) = env::var("YASMUREKH_BEFORE") {
        link(Path::new(&folder), "before");
        println!("cargo:rustc-cfg=before");
        let windows = env::var("YASMUREKH_BEFORE_WINDOWS");
        let windows = windows.expect("one or two, as bench/before says");
        println!("cargo:rustc-cfg=before_windows=\"{windows}\"");
        if env::var("YASMUREKH_BEFORE_TAKE_MANY").is_ok_and(|has| has == "yes") {
            println!("cargo:rustc-cfg=before_take_many");
        }
    }
    println!("cargo:rerun-if-env-changed=YASMUREKH_BEFORE");
    println!("cargo:rerun-if-env-changed=YASMUREKH_BEFORE_WINDOWS");
    println!("cargo:rerun-if-env-changed=YASMUREKH_BEFORE_TAKE_MANY");
    println!("cargo:rerun-if-changed=build.rs");
}
