//! Makes the tree of the original under OUT_DIR: each file copied, and held to its source after the copy, line by line.
//! The copy of spacetime.rs differs in the line of `LEAST_INK`. Those of spacetime.rs and rle.rs get a line after the
//! original's last byte, which declares src/harness.rs and src/pushing.rs their child modules, so that these may call what
//! is private there.

use std::path::{Path, PathBuf};
use std::{env, fs};

/// Module and path below the original's crates/. lexer.rs is left out: nothing here leans on it.
const FILES: [(&str, &str); 9] = [
    ("alphabet", "turing-core/src/alphabet.rs"),
    ("checkpoint", "turing-core/src/checkpoint.rs"),
    ("machine", "turing-core/src/machine.rs"),
    ("outcome", "turing-core/src/outcome.rs"),
    ("rle", "turing-core/src/rle.rs"),
    ("sim", "turing-core/src/sim.rs"),
    ("symbol", "turing-core/src/symbol.rs"),
    ("palette", "turing-render/src/palette.rs"),
    ("spacetime", "turing-render/src/spacetime.rs"),
];

/// The one line of the original that is another in the copy: as it is there, and here. The least ink that a row draws is 8
/// (RULES, Rows). The constant is local to `ink_shade`, so the colour table keeps its colours of the inks from 1 on.
const LEAST_INK: (&str, &str) =
    ("fn ink_shade(share: f64) -> u8 {", "fn ink_shade(share: f64) -> u8 { const INK_MIN: u8 = 8;");

/// Names the folder of the original, the one that holds its crates/, where it is not beside the repository.
const ORIGINAL: &str = "LISHQEMU_ORIGINAL";

fn main() {
    let here = folder("CARGO_MANIFEST_DIR");
    let tree = folder("OUT_DIR");
    let original = env::var_os(ORIGINAL).map_or_else(|| here.join("../../../shared/docs/src"), PathBuf::from);
    println!("cargo::rerun-if-env-changed={ORIGINAL}");
    println!("cargo::rerun-if-changed=build.rs");
    // A feature that the original's files ask about, and that is off here.
    println!("cargo::rustc-check-cfg=cfg(feature, values(\"serde\"))");

    let mut modules = String::new();
    for (module, path) in FILES {
        let source = original.join("crates").join(path);
        println!("cargo::rerun-if-changed={}", source.display());
        let (edits, appended) = match module {
            "rle" => (&[][..], child_module("pushing", &here.join("src/pushing.rs"))),
            "spacetime" => (&[LEAST_INK][..], child_module("harness", &here.join("src/harness.rs"))),
            _ => (&[][..], String::new()),
        };
        copy(&source, &tree.join(module).with_extension("rs"), edits, &appended);
        modules += &format!("#[allow(warnings, clippy::all, clippy::pedantic)]\nmod {module};\n");
    }
    write(&tree.join("original.rs"), modules.as_bytes());
}

fn folder(variable: &str) -> PathBuf {
    PathBuf::from(env::var_os(variable).expect("cargo sets it"))
}

fn child_module(name: &str, file: &Path) -> String {
    format!("\n#[path = {file:?}]\npub(crate) mod {name};\n")
}

/// Copies `source` to `copy` with the edited lines, puts `appended` after it, and compares what was written with the
/// source: each edit is made once, and no other line differs.
fn copy(source: &Path, copy: &Path, edits: &[(&str, &str)], appended: &str) {
    let edited = edits.iter().fold(read(source), |text, (there, here)| text.replace(there, here));
    write(copy, (edited + appended).as_bytes());
    let written = read(copy);
    let written = written.strip_suffix(appended).expect("what was appended is at the end");
    let original = read(source);
    let differing: Vec<_> =
        original.split('\n').zip(written.split('\n')).filter(|(there, here)| there != here).collect();
    assert!(
        differing == edits && original.split('\n').count() == written.split('\n').count(),
        "{} differs from the original in other lines than it should: {differing:?}",
        copy.display()
    );
}

fn read(file: &Path) -> String {
    fs::read_to_string(file).unwrap_or_else(|error| {
        panic!(
            "{}: {error} (the Rust original stands in shared/docs/src beside the repository, or where {ORIGINAL} says)",
            file.display()
        )
    })
}

fn write(file: &Path, bytes: &[u8]) {
    fs::write(file, bytes).unwrap_or_else(|error| panic!("{}: {error}", file.display()));
}
