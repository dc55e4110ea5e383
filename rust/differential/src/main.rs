//! Compares the proved library with the Rust original and with the rules (docs/RULES.md), on many inputs.

mod calls;
mod case;
mod colours;
mod columns;
mod count;
mod ffi;
mod kinds;
mod model;
mod orders;
mod plain;
mod record;
mod rows;
mod tape;
mod tapes;

use std::env;
use std::process::ExitCode;
use std::time::Instant;

use random::Rng;

use case::{Difference, Verdict};
use count::Count;

const USAGE: &str = "differential [--seed NUMBER] [--kind NAME] [--case 'TEXT']

  --seed   another run of random cases (also: the variable LISHQEMU_SEED)
  --kind   one kind of comparison alone
  --case   one case alone, as a differing one is printed";

/// The gate's run is the same every time.
const SEED: u64 = 1_936_061_028;

struct Options {
    seed: u64,
    kind: Option<String>,
    case: Option<String>,
}

fn main() -> ExitCode {
    let ran = options().and_then(|options| match &options.case {
        Some(text) => one_case(text),
        None => all_kinds(&options),
    });
    match ran {
        Ok(true) => ExitCode::SUCCESS,
        Ok(false) => ExitCode::FAILURE,
        Err(message) => {
            eprintln!("{message}\n\n{USAGE}");
            ExitCode::from(2)
        }
    }
}

fn options() -> Result<Options, String> {
    let seed = env::var("LISHQEMU_SEED").ok().map_or(Ok(SEED), |text| number(&text))?;
    let mut options = Options { seed, kind: None, case: None };
    let mut words = env::args().skip(1);
    while let Some(word) = words.next() {
        let value = words.next().ok_or_else(|| format!("{word} needs a value"))?;
        match word.as_str() {
            "--seed" => options.seed = number(&value)?,
            "--kind" => options.kind = Some(value),
            "--case" => options.case = Some(value),
            _ => return Err(format!("{word}: no such option")),
        }
    }
    Ok(options)
}

fn number(text: &str) -> Result<u64, String> {
    text.parse().map_err(|_| format!("{text}: not a seed"))
}

fn one_case(text: &str) -> Result<bool, String> {
    let judged = calls::replay(text)?;
    match &judged {
        Ok(Verdict::Equal) => println!("equal"),
        Ok(Verdict::Apart) => println!("the library is as the rules have it, the original is not"),
        Err(Difference(how)) => println!("differs: {how}"),
    }
    Ok(judged.is_ok())
}

fn all_kinds(options: &Options) -> Result<bool, String> {
    let wanted = |name: &str| options.kind.as_deref().is_none_or(|kind| kind == name);
    let mut sum = Count::default();
    println!("seed {}", options.seed);
    println!("{:<24}{:>12}{:>12}{:>12}{:>10}", "kind", "compared", "apart", "differed", "ms");
    for kind in kinds::ALL.iter().filter(|kind| wanted(kind.name)) {
        let began = Instant::now();
        let mut count = Count::default();
        (kind.run)(&mut count, &mut Rng::of_kind(options.seed, kind.name));
        let Count { compared, apart, differed, .. } = count;
        let took = began.elapsed().as_millis();
        println!("{:<24}{compared:>12}{apart:>12}{differed:>12}{took:>10}", kind.name);
        sum.compared += compared;
        sum.apart += apart;
        sum.differed += differed;
        sum.pixels += count.pixels;
    }
    if sum.compared == 0 {
        return Err("nothing was compared".to_string());
    }
    println!("apart: the library is as the rules have it and the original is not; docs/DIFFERENCES.md lists these");
    println!("pixels of rows compared with the original: {}", sum.pixels);
    println!("compared={} apart={} differed={}", sum.compared, sum.apart, sum.differed);
    Ok(sum.differed == 0)
}
