//! Joins two statement sheets into one list: prints the plan that gives the rows
//! of both, or says which file is refused and why.
//!
//!     cargo run --release --example pair LEFT.sheet RIGHT.sheet

use dresserhawk::{PairRefusal, Planner, Side};
use std::error::Error;
use std::io::Write;

fn main() -> Result<(), Box<dyn Error>> {
    let files: Vec<String> = std::env::args().skip(1).collect();
    let [left, right] = &files[..] else { return Err("two files are due: LEFT RIGHT".into()) };
    // As UNION does: a row that both have stands in the list once. With `true` it
    // is UNION ALL.
    let all = false;
    match Planner::new().plan_pair(&std::fs::read(left)?, &std::fs::read(right)?, all) {
        Ok(plan) => Ok(std::io::stdout().write_all(plan)?),
        Err(PairRefusal { side, refusal }) => {
            let file = match side {
                Some(Side::Left) => left,
                Some(Side::Right) => right,
                None => "both together",
            };
            eprintln!("{file}: refused ({}): {refusal}", refusal.number());
            std::process::exit(1);
        }
    }
}
