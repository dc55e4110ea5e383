//! The command, run as a program, and its files.

#![allow(dead_code, reason = "each test uses its part")]

use std::ffi::OsStr;
use std::fs::{self, File};
use std::io::BufReader;
use std::path::{Path, PathBuf};
use std::process::{self, Command, Output, Stdio};
use std::sync::atomic::{AtomicU32, Ordering};

pub const PROGRAM: &str = env!("CARGO_BIN_EXE_spacetime");

/// The machine that is drawn where none is given.
pub const CHAMPION: &str = "1RB1LC_1RC1RB_1RD0LE_1LA1LD_1RZ0LA";

/// More steps than can be made: what is asked before them is answered, or never.
pub const ENDLESS: [&str; 3] = ["0RB---_0LA---", "--steps", "18446744073709551615"];

/// Runs the command with these arguments and no terminal.
pub fn spacetime(arguments: impl IntoIterator<Item = impl AsRef<OsStr>>) -> Output {
    Command::new(PROGRAM).args(arguments).stdin(Stdio::null()).output().unwrap()
}

pub fn text(bytes: &[u8]) -> &str {
    str::from_utf8(bytes).unwrap()
}

/// Holds an answer: its status, what it printed, and that nothing else was said.
pub fn assert_said(output: &Output, status: i32, words: &str) {
    assert_eq!((output.status.code(), text(&output.stdout)), (Some(status), words), "{output:?}");
    assert!(output.stderr.is_empty(), "{output:?}");
}

/// Holds a failure: its status, nothing printed, and one sentence that has these words.
pub fn assert_failed(output: &Output, status: i32, words: &str) {
    let said = text(&output.stderr);
    assert_eq!(output.status.code(), Some(status), "{output:?}");
    assert!(output.stdout.is_empty(), "{output:?}");
    assert!(said.contains(words), "{said:?} has no {words:?}");
    assert!(said.starts_with("spacetime: ") && said.ends_with(".\n"), "{said:?}");
    assert!(said.lines().count() == 1 && said.len() < 250, "{said:?}");
    assert!(!said.contains('\x1b'), "{said:?}");
}

/// A mistake: status 2.
pub fn assert_refused(output: &Output, words: &str) {
    assert_failed(output, 2, words);
}

/// A folder of a test's own, which goes with it.
pub struct Scratch(PathBuf);

impl Scratch {
    pub fn new() -> Self {
        static NEXT: AtomicU32 = AtomicU32::new(0);
        let number = NEXT.fetch_add(1, Ordering::Relaxed);
        let folder = PathBuf::from(env!("CARGO_TARGET_TMPDIR")).join(format!("{}-{number}", process::id()));
        fs::create_dir_all(&folder).unwrap();
        Self(folder)
    }

    pub fn file(&self, name: &str) -> String {
        self.0.join(name).into_os_string().into_string().unwrap()
    }

    pub fn path(&self) -> &Path {
        &self.0
    }

    /// The names in the folder, sorted.
    pub fn names(&self) -> Vec<String> {
        let entries = fs::read_dir(&self.0).unwrap().map(|entry| entry.unwrap().file_name().into_string().unwrap());
        let mut names: Vec<String> = entries.collect();
        names.sort();
        names
    }

    /// Runs the command in the folder.
    pub fn run(&self, arguments: &[&str]) -> Output {
        Command::new(PROGRAM).args(arguments).current_dir(&self.0).stdin(Stdio::null()).output().unwrap()
    }

    /// Runs a line of bash in the folder, where `$spacetime` is the command.
    pub fn bash(&self, line: &str) -> Output {
        let mut bash = Command::new("bash");
        bash.args(["-c", line]).env("spacetime", PROGRAM).current_dir(&self.0).stdin(Stdio::null()).output().unwrap()
    }
}

impl Drop for Scratch {
    fn drop(&mut self) {
        let _ = fs::remove_dir_all(&self.0);
    }
}

/// A decoded file.
pub struct Decoded {
    pub width: u32,
    pub height: u32,
    pub index: Vec<u8>,
    pub texts: Vec<(String, String)>,
    pub palette: Vec<u8>,
}

impl Decoded {
    pub fn rgba(&self) -> Vec<u8> {
        let colour = |&byte: &u8| {
            let at = 3 * usize::from(byte);
            [self.palette[at], self.palette[at + 1], self.palette[at + 2], 255]
        };
        self.index.iter().flat_map(colour).collect()
    }
}

pub fn png(file: &str) -> Decoded {
    let mut reader = png::Decoder::new(BufReader::new(File::open(file).unwrap())).read_info().unwrap();
    let mut index = vec![0; reader.output_buffer_size()];
    reader.next_frame(&mut index).unwrap();
    let info = reader.info();
    let palette = info.palette.as_ref().unwrap().to_vec();
    let texts = info.uncompressed_latin1_text.iter().map(|text| (text.keyword.clone(), text.text.clone())).collect();
    Decoded { width: info.width, height: info.height, index, texts, palette }
}
