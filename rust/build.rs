//! Links the proved static library, which `scripts/archive` builds: that of the repository around this
//! crate, or the one in the folder that YASMUREKH_LIB_DIR names.

use std::env;
use std::path::{Path, PathBuf};
use std::process::{exit, Command};

fn main() {
    println!("cargo:rerun-if-env-changed=YASMUREKH_LIB_DIR");
    let given = env::var_os("YASMUREKH_LIB_DIR").map(PathBuf::from);
    let here = env::var_os("CARGO_MANIFEST_DIR").expect("cargo sets CARGO_MANIFEST_DIR");
    let top = PathBuf::from(here).join("..");
    let folder = given.clone().unwrap_or(top.join("target/staticlib"));
    let archive = folder.join("libcapi.a");
    println!("cargo:rerun-if-changed={}", archive.display());
    if !archive.is_file() {
        eprintln!(
            "error: {} isn't there. Run scripts/archive, which builds it, or set YASMUREKH_LIB_DIR \
             to the folder that has it.",
            archive.display()
        );
        exit(1);
    }
    if given.is_none() {
        refuse_stale(&top);
    }
    println!("cargo:rustc-link-search=native={}", folder.display());
    println!("cargo:rustc-link-lib=static=capi");
}

/// Ends the build where the repository's archive isn't made from its crates as they are.
fn refuse_stale(top: &Path) {
    let script = top.join("scripts/fresh");
    // The crate may lie beside an archive alone.
    if !script.is_file() {
        return;
    }
    for name in [
        "crates",
        "crates.txt",
        "scripts",
        "target/staticlib/libcapi.a.made-from",
    ] {
        println!("cargo:rerun-if-changed={}", top.join(name).display());
    }
    match Command::new("bash").arg(&script).status() {
        Ok(status) if status.success() => {}
        Ok(_) => exit(1),
        Err(error) => {
            eprintln!("error: {} can't be run: {error}", script.display());
            exit(1);
        }
    }
}
