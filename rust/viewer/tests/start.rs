//! The start script, in a tree that stands for the repository: what it needs, and what it says where that is missing.

mod common;

use std::fs;
use std::os::unix::fs::{PermissionsExt, symlink};
use std::path::Path;
use std::process::{Command, Output};

use common::{PROGRAM, Scratch, assert_failed, assert_said, text};

const REPOSITORY: &str = concat!(env!("CARGO_MANIFEST_DIR"), "/../..");

/// The tools that the script may call: neither rt nor cargo is among them.
const TOOLS: [&str; 6] = ["bash", "dirname", "realpath", "find", "touch", "cat"];

const BUILT: &str = "rust/viewer/target/release/spacetime";
const LIBRARY: &str = "target/staticlib/libspacetime.a";

/// A tree with the script, its sources and the tools. Nothing is built.
fn tree() -> Scratch {
    let scratch = Scratch::new();
    for folder in [
        "crates",
        "rust/viewer/src",
        "rust/viewer/target/release",
        "rust/spacetime",
        "rust/archives",
        "target/staticlib",
        "tools",
    ] {
        fs::create_dir_all(scratch.file(folder)).unwrap();
    }
    for file in ["crates.txt", "crates/x.rt", "rust/viewer/Cargo.toml", "rust/viewer/Cargo.lock"] {
        fs::write(scratch.file(file), "").unwrap();
    }
    for script in ["spacetime", "rust/viewer/cargo.sh"] {
        fs::copy(Path::new(REPOSITORY).join(script), scratch.file(script)).unwrap();
    }
    for tool in TOOLS {
        let found = Command::new("bash").args(["-c", &format!("command -v {tool}")]).output().unwrap();
        symlink(text(&found.stdout).trim(), scratch.file(&format!("tools/{tool}"))).unwrap();
    }
    scratch
}

/// A tree in which the program is built, after all its sources.
fn built() -> Scratch {
    let scratch = tree();
    fs::copy(PROGRAM, scratch.file(BUILT)).unwrap();
    scratch
}

/// Starts the script, or a link to it, with the tree's tools alone.
fn start(scratch: &Scratch, script: &str) -> Output {
    let mut command = Command::new(scratch.file(script));
    command.arg("--version").env("PATH", scratch.file("tools")).env_remove("LISHQEMU_ARCHIVES").output().unwrap()
}

const VERSION: &str = concat!("spacetime ", env!("CARGO_PKG_VERSION"), "\n");

#[test]
fn a_link_starts_it() {
    let scratch = built();
    fs::create_dir(scratch.file("elsewhere")).unwrap();
    symlink("../spacetime", scratch.file("elsewhere/link")).unwrap();
    symlink(scratch.file("elsewhere/link"), scratch.file("elsewhere/spacetime")).unwrap();
    assert_said(&start(&scratch, "elsewhere/spacetime"), 0, VERSION);
}

#[test]
fn what_is_built_needs_nothing_else_and_no_writing() {
    let scratch = built();
    let list = "find . -type f -printf '%p %T@\\n' | sort";
    let before = scratch.bash(list);
    scratch.bash("chmod -R a-w .");
    let output = start(&scratch, "spacetime");
    scratch.bash("chmod -R u+w .");
    assert_said(&output, 0, VERSION);
    assert_eq!(text(&before.stdout), text(&scratch.bash(list).stdout));
}

#[test]
fn what_is_missing_is_said() {
    let scratch = tree();
    assert_failed(&start(&scratch, "spacetime"), 3, "rt is missing");
    fs::write(scratch.file(LIBRARY), "").unwrap();
    assert_failed(&start(&scratch, "spacetime"), 3, "cargo is missing");
}

/// A build that stands for cargo's, with these lines.
fn stand_in(scratch: &Scratch, lines: &str) {
    let script = format!("#!/usr/bin/env bash\n{lines}\n");
    fs::write(scratch.file("rust/viewer/cargo.sh"), script).unwrap();
    fs::set_permissions(scratch.file("rust/viewer/cargo.sh"), fs::Permissions::from_mode(0o755)).unwrap();
}

#[test]
fn what_is_older_than_a_source_is_built() {
    let scratch = built();
    stand_in(&scratch, "echo \"built by $*\" >&2");
    scratch.bash("touch target/staticlib/libspacetime.a; touch -d '1 hour' rust/spacetime/new.rs");
    let output = start(&scratch, "spacetime");
    assert_eq!((output.status.code(), text(&output.stdout)), (Some(0), VERSION));
    assert!(text(&output.stderr).starts_with("built by build --release"), "{output:?}");
}

#[test]
fn what_rt_keeps_of_a_crate_is_no_source() {
    let scratch = built();
    scratch.bash(&format!("mkdir -p crates/x/src crates/x/out; touch {BUILT}"));
    scratch.bash("touch -d '1 hour' crates/x crates/x/out crates/x/out/kept");
    assert_said(&start(&scratch, "spacetime"), 0, VERSION);
    scratch.bash("touch -d '1 hour' crates/x/src/lib.rt");
    assert_failed(&start(&scratch, "spacetime"), 3, "rt is missing");
}

#[test]
fn a_failed_build_is_said() {
    let scratch = tree();
    fs::write(scratch.file(LIBRARY), "").unwrap();
    stand_in(&scratch, "exit 101");
    assert_failed(&start(&scratch, "spacetime"), 3, "could not be built");
}
