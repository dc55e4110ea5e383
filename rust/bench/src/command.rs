//! The command `spacetime` as a whole, from the start of its process to its end, the file included.

use std::path::Path;
use std::process::{Command, Stdio};
use std::time::Instant;
use std::{env, fs, process};

use crate::measure::{median, time};

const COMMAND: &str = concat!(env!("CARGO_MANIFEST_DIR"), "/../viewer/target/release/spacetime");
const RUNS: usize = 21;

const ORDERS: [(&str, &[&str]); 4] = [
    ("the champion, 640 × 480", &[]),
    ("the champion, 4096 × 4096", &["--width=4096", "--height=4096"]),
    ("the champion's first steps, `--exact`", &["--exact"]),
    ("four symbols, 640 × 480", &["1RB2LA1RA1RA_1LB1LA3RB1RZ"]),
];

pub fn run() {
    if !Path::new(COMMAND).is_file() {
        eprintln!("the command is not built and not timed: rust/viewer/cargo.sh build --release");
        return;
    }
    println!("## The command as a whole\n");
    println!("| what | median | fastest | slowest |");
    println!("|---|---|---|---|");
    for (name, words) in ORDERS {
        let mut seconds: Vec<f64> = (0..RUNS).map(|_| timed(words)).collect();
        seconds.sort_by(f64::total_cmp);
        let [fastest, slowest] = [seconds[0], seconds[RUNS - 1]].map(time);
        println!("| {name} | {} | {fastest} | {slowest} |", time(median(seconds)));
    }
    println!();
}

/// The seconds of one run, whose file is removed after.
fn timed(words: &[&str]) -> f64 {
    let file = env::temp_dir().join(format!("spacetime-{}.png", process::id()));
    let mut command = Command::new(COMMAND);
    command.args(words).arg("--output").arg(&file).stdout(Stdio::null()).stderr(Stdio::null());
    let began = Instant::now();
    let status = command.status().expect("the command starts");
    let seconds = began.elapsed().as_secs_f64();
    assert!(status.success(), "the command draws");
    fs::remove_file(file).expect("the command's file");
    seconds
}
