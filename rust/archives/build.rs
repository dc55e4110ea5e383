//! Links the archives that tools/archive.sh writes, and has it write one that is missing or older than its sources.

use std::path::{Path, PathBuf};
use std::process::Command;
use std::time::SystemTime;
use std::{env, fs, io};

/// Names the folder of the archives, where it is not the repository's target/staticlib. They are then taken as they are.
const ARCHIVES: &str = "LISHQEMU_ARCHIVES";

/// Proves a library and writes its archive, in the repository.
const WRITER: &str = "tools/archive.sh";

fn main() {
    let architecture = env::var("CARGO_CFG_TARGET_ARCH").expect("cargo sets it");
    assert!(architecture == "x86_64", "the archives are x86-64 code: build for that, not for {architecture}");
    let repository = PathBuf::from(env::var_os("CARGO_MANIFEST_DIR").expect("cargo sets it")).join("../..");
    let named = env::var_os(ARCHIVES).map(PathBuf::from);
    let archives = named.clone().unwrap_or_else(|| repository.join("target/staticlib"));
    println!("cargo::rerun-if-env-changed={ARCHIVES}");
    println!("cargo::rerun-if-changed=build.rs");
    println!("cargo::rustc-link-search=native={}", archives.display());
    for library in libraries() {
        let archive = archives.join(format!("lib{library}.a"));
        if named.is_none() {
            renew(library, &archive, &repository);
        }
        assert!(archive.is_file(), "no {}: `{WRITER} {library}` writes it", archive.display());
        println!("cargo::rerun-if-changed={}", archive.display());
        println!("cargo::rustc-link-lib=static={library}");
    }
}

fn libraries() -> &'static [&'static str] {
    if env::var_os("CARGO_FEATURE_PROBE").is_some() { &["spacetime", "probe"] } else { &["spacetime"] }
}

/// Has the archive written where it is missing or older than a source.
fn renew(library: &str, archive: &Path, repository: &Path) {
    let sources = sources(repository).unwrap_or_else(|error| panic!("the crates' sources cannot be read: {error}"));
    for source in &sources {
        println!("cargo::rerun-if-changed={}", source.display());
    }
    let written = fs::metadata(archive).and_then(|file| file.modified()).ok();
    let changed = sources.iter().filter_map(|source| newest(source).ok()).max();
    if written.is_some() && written >= changed {
        return;
    }
    let status = Command::new(repository.join(WRITER)).arg(library).status();
    let status = status.unwrap_or_else(|error| panic!("`{WRITER} {library}` cannot be started: {error}"));
    assert!(status.success(), "`{WRITER} {library}` failed: run it in the repository to see why");
}

/// What an archive is made from: the list of crates, and all that a crate has but what rt keeps there.
fn sources(repository: &Path) -> io::Result<Vec<PathBuf>> {
    let mut sources = vec![repository.join("crates.txt")];
    for folder in fs::read_dir(repository.join("crates"))? {
        let folder = folder?.path();
        if folder.is_dir() {
            let parts = fs::read_dir(folder)?.collect::<Result<Vec<_>, _>>()?;
            sources.extend(parts.iter().filter(|part| part.file_name() != "out").map(fs::DirEntry::path));
        }
    }
    Ok(sources)
}

/// When the file, or the newest one in the folder, was changed last.
fn newest(path: &Path) -> io::Result<SystemTime> {
    let mut latest = fs::metadata(path)?.modified()?;
    if path.is_dir() {
        for entry in fs::read_dir(path)? {
            latest = latest.max(newest(&entry?.path())?);
        }
    }
    Ok(latest)
}
