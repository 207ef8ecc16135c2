//! Holds the proved calls against the Rust and against a second reading of
//! document 01, sheet by sheet and byte by byte. rust/README.md says how.

extern crate cyrs_hir;
extern crate cyrs_plan;
extern crate cyrs_syntax;
extern crate smol_str;

mod answers;
mod calls;
mod damage;
mod generate;
mod hold;
mod limits;
mod lines;
mod original;
mod pairs;
mod reading;
mod rng;
mod run;
mod shrink;
mod speed;
mod tally;
#[cfg(test)]
mod trial;

use hold::pair::PairCase;
use std::collections::HashMap;
use std::path::{Path, PathBuf};
use std::time::Duration;

const USE: &str = "use:
  compare run [--sheets N] [--seed S] [--threads T] [--folder DIR] [--in-place-of-ours NAME]
  compare run --pairs N [--seed S] [--threads T] [--folder DIR] [--in-place-of-ours NAME]
  compare one FILE                     all sides on one sheet
  compare one-pair LEFT RIGHT [--all 1]
                                       all sides on one pair
  compare answer DIR                   NAME.answer, the Rust's, beside each NAME.sheet and NAME.pair
  compare sample SHEETS ANSWERS [--count N] [--seed S]
                                       the fixed list and the Rust's answers to it
  compare sample-pairs PAIRS ANSWERS [--count N] [--seed S]
                                       the same for pairs
  compare speed [--seconds S]          times, for each row in so long at least
  compare speed --count SIDE --load LOAD [--rounds K]
                                       the calls of a row alone, for callgrind. SIDE is sizing,
                                       ours, rust, rust-reading or all; LOAD a number of records,
                                       or distinct, same, multiples, chain or text";

/// Options by name.
struct Options(HashMap<String, String>);

impl Options {
    fn new(words: &[&str]) -> Result<Self, String> {
        let mut options = HashMap::new();
        for pair in words.chunks(2) {
            match pair {
                [name, value] if name.starts_with("--") => {
                    options.insert(name[2..].to_string(), value.to_string());
                }
                _ => return Err(USE.to_string()),
            }
        }
        Ok(Options(options))
    }

    fn number(&self, name: &str, default: u64) -> Result<u64, String> {
        match self.0.get(name) {
            None => Ok(default),
            Some(value) => value.parse().map_err(|_| format!("--{name}: not a number")),
        }
    }
}

/// The proved calls, or a stand-in for them.
fn calls(options: &Options) -> Result<calls::Calls, String> {
    match options.0.get("in-place-of-ours") {
        None => Ok(calls::PROVED),
        Some(name) => calls::stand_in(name).ok_or(format!("no stand-in {name}")),
    }
}

/// A run over sheets, or over pairs if their number is given.
fn run_all(options: &Options) -> Result<bool, String> {
    let seed = options.number("seed", 1)?;
    let pairs = options.0.contains_key("pairs");
    if pairs && options.0.contains_key("sheets") {
        return Err("a run goes over sheets or over pairs".to_string());
    }
    let folder = format!("target/compare/{}{seed}", if pairs { "pairs-" } else { "" });
    let plan = run::Plan {
        calls: calls(options)?,
        seed,
        count: options.number(if pairs { "pairs" } else { "sheets" }, 1_000_000)?,
        threads: options.number("threads", 1)? as usize,
        folder: PathBuf::from(options.0.get("folder").unwrap_or(&folder)),
    };
    let run = if pairs { run::run::<PairCase> } else { run::run::<hold::Case> };
    run(&plan).map_err(|error| error.to_string())
}

fn read(file: &str) -> Result<Vec<u8>, String> {
    std::fs::read(file).map_err(|error| format!("{file}: {error}"))
}

fn one(file: &str, options: &Options) -> Result<bool, String> {
    let case = hold::Case { sheet: read(file)?, work: [16_384; 4], rooms: [1, -2] };
    let (verdict, result) = hold::hold(&case, &calls(options)?, &mut hold::Bench::new());
    println!("reading: {:?}, {:?}", verdict.answer, verdict.why);
    told(result)
}

fn one_pair(left: &str, right: &str, options: &Options) -> Result<bool, String> {
    let all = options.number("all", 0)? == 1;
    let case = PairCase::plain(&read(left)?, &read(right)?, all);
    let (verdict, result) = hold::pair::hold_pair(&case, &calls(options)?, &mut hold::Bench::new());
    println!("reading: {:?}, {:?}", verdict.answer, verdict.why);
    told(result)
}

/// Says what came of a comparison.
fn told(result: Result<hold::Asked, hold::Difference>) -> Result<bool, String> {
    match result {
        Ok(asked) => println!("no difference; the Rust was asked: {asked:?}"),
        Err(difference) => {
            println!("{}", difference.what);
            for (side, said) in difference.said {
                println!("-- {side}\n{}", String::from_utf8_lossy(&said));
            }
            return Ok(false);
        }
    }
    Ok(true)
}

fn speed(options: &Options) -> Result<bool, String> {
    let calls = calls(options)?;
    match options.0.get("count") {
        None => speed::table(&calls, Duration::from_secs(options.number("seconds", 2)?)),
        Some(side) => {
            let load = options.0.get("load").ok_or(USE)?;
            speed::count(&calls, side, load, options.number("rounds", 1)? as usize)?;
        }
    }
    Ok(true)
}

fn act(words: &[&str]) -> Result<bool, String> {
    match words {
        ["run", rest @ ..] => run_all(&Options::new(rest)?),
        ["one", file, rest @ ..] => one(file, &Options::new(rest)?),
        ["one-pair", left, right, rest @ ..] => one_pair(left, right, &Options::new(rest)?),
        ["answer", folder] => {
            let (sheets, pairs) = answers::folder(Path::new(folder))?;
            println!("{sheets} sheets and {pairs} pairs answered");
            Ok(true)
        }
        ["sample", sheets, said, rest @ ..] => {
            let options = Options::new(rest)?;
            let count = options.number("count", 1_000)? as usize;
            answers::sample(options.number("seed", 1)?, count, Path::new(sheets), Path::new(said))
        }
        ["sample-pairs", pairs, said, rest @ ..] => {
            let options = Options::new(rest)?;
            let count = options.number("count", 150)? as usize;
            answers::sample_pairs(
                options.number("seed", 1)?,
                count,
                Path::new(pairs),
                Path::new(said),
            )
        }
        ["speed", rest @ ..] => speed(&Options::new(rest)?),
        _ => Err(USE.to_string()),
    }
}

fn main() {
    let words: Vec<String> = std::env::args().skip(1).collect();
    let words: Vec<&str> = words.iter().map(String::as_str).collect();
    match act(&words) {
        Ok(true) => {}
        Ok(false) => std::process::exit(1),
        Err(error) => {
            eprintln!("compare: {error}");
            std::process::exit(2);
        }
    }
}
