//! Reads a statement sheet from standard input and prints its plan, or why it
//! is refused.
//!
//!     cargo run --release --example lower <NAME.sheet

use std::io::{Read, Write};

fn main() -> std::io::Result<()> {
    let mut sheet = Vec::new();
    std::io::stdin().read_to_end(&mut sheet)?;
    match dresserhawk::Planner::new().plan(&sheet) {
        Ok(plan) => std::io::stdout().write_all(plan),
        Err(refusal) => {
            eprintln!("refused ({}): {refusal}", refusal.number());
            std::process::exit(1);
        }
    }
}
