//! Files and outputs: what is there stays until the new picture is whole, and every failure is said.

mod common;

use std::fs;
use std::os::unix::fs::{PermissionsExt, symlink};

use common::{Scratch, assert_failed, assert_said, png, text};

/// A disk with no room, for whoever runs the test: files of more than a kilobyte cannot be written.
const FULL: &str = "trap '' XFSZ; ulimit -f 1;";

#[test]
fn a_full_disk_leaves_the_old_file_whole() {
    let scratch = Scratch::new();
    fs::write(scratch.file("old.png"), "what was there").unwrap();
    let output = scratch.bash(&format!("{FULL} $spacetime --output old.png"));
    assert_failed(&output, 3, "`old.png` cannot be written");
    assert_eq!(fs::read_to_string(scratch.file("old.png")).unwrap(), "what was there");
    assert_eq!(scratch.names(), ["old.png"]);
}

#[test]
fn a_full_disk_leaves_no_new_file() {
    let scratch = Scratch::new();
    assert_failed(&scratch.bash(&format!("{FULL} $spacetime")), 3, "`spacetime.png` cannot be written");
    assert!(scratch.names().is_empty(), "{:?}", scratch.names());
}

#[test]
fn a_file_keeps_its_rights_and_its_links() {
    let scratch = Scratch::new();
    fs::write(scratch.file("kept.png"), "old").unwrap();
    fs::set_permissions(scratch.file("kept.png"), fs::Permissions::from_mode(0o604)).unwrap();
    symlink("kept.png", scratch.file("link.png")).unwrap();
    assert!(scratch.run(&["1RB1LB_1LA1RZ", "--output", "link.png"]).status.success());
    assert_eq!(fs::metadata(scratch.file("kept.png")).unwrap().permissions().mode() & 0o777, 0o604);
    assert_eq!(fs::read_link(scratch.file("link.png")).unwrap().to_str(), Some("kept.png"));
    assert_eq!(png(&scratch.file("kept.png")).width, 32);
    assert_eq!(scratch.names(), ["kept.png", "link.png"]);
}

#[test]
fn standard_output_takes_the_picture() {
    let scratch = Scratch::new();
    assert!(scratch.run(&["--output", "file.png"]).status.success());
    for arguments in [["-o", "-"], ["--output", "-"]] {
        let output = scratch.run(&arguments);
        assert!(output.stdout == fs::read(scratch.file("file.png")).unwrap(), "{:?}", output.status);
        assert!(text(&output.stderr).starts_with("Standard output: 640 by 480 pixels,"), "{:?}", output.stderr);
    }
    assert_eq!(scratch.names(), ["file.png"]);
}

#[test]
fn a_full_output_is_said() {
    let scratch = Scratch::new();
    for arguments in ["", "--locate 0,0", "--json", "--help", "--output -", "locate spacetime.png 0,0"] {
        let output = scratch.bash(&format!("$spacetime {arguments} >/dev/full"));
        assert_failed(&output, 3, "The output cannot be written (No space left on device");
    }
    assert_failed(&scratch.run(&["--output", "/dev/full"]), 3, "`/dev/full` cannot be written");
}

#[test]
fn equal_orders_are_equal_files() {
    let scratch = Scratch::new();
    for name in ["a.png", "b.png"] {
        assert!(scratch.run(&["--output", name]).status.success());
    }
    assert!(fs::read(scratch.file("a.png")).unwrap() == fs::read(scratch.file("b.png")).unwrap());
}

#[test]
fn a_question_writes_no_file_unless_one_is_named() {
    let scratch = Scratch::new();
    let said = "Pixel 0,0: row 0, step 0, cells -12,243 to -12,224; paper.\n";
    assert_said(&scratch.run(&["--locate=0,0"]), 0, said);
    assert!(scratch.names().is_empty());
    assert_eq!(text(&scratch.run(&["--locate=0,0", "--output=named.png"]).stdout).lines().count(), 2);
    assert_eq!(scratch.names(), ["named.png"]);
}
