//! Links the archive of an earlier version beside this one's, where LISHQEMU_BEFORE names the folder that it is in. Of its
//! functions the row call alone is to be seen, as `before_row`: all others would be there twice.

use std::env;
use std::path::PathBuf;
use std::process::Command;

const BEFORE: &str = "LISHQEMU_BEFORE";

fn main() {
    println!("cargo::rerun-if-env-changed={BEFORE}");
    println!("cargo::rerun-if-changed=build.rs");
    println!("cargo::rustc-check-cfg=cfg(before)");
    let Some(folder) = env::var_os(BEFORE) else { return };
    let archive = PathBuf::from(folder).join("libspacetime.a");
    println!("cargo::rerun-if-changed={}", archive.display());
    let out = PathBuf::from(env::var_os("OUT_DIR").expect("cargo sets it"));
    let renamed = Command::new("objcopy")
        .args(["--redefine-sym", "spacetime_row=before_row", "--keep-global-symbol=before_row"])
        .args([&archive, &out.join("libbefore.a")])
        .status()
        .unwrap_or_else(|error| panic!("objcopy, of binutils, cannot be started: {error}"));
    assert!(renamed.success(), "no row call in {}", archive.display());
    println!("cargo::rustc-link-search=native={}", out.display());
    println!("cargo::rustc-link-lib=static=before");
    println!("cargo::rustc-cfg=before");
}
