//! How long the calls take, beside the Rust.
//!
//! Ours goes from bytes to bytes. The Rust is measured twice: with its tree
//! ready made, for `lower_statement`, printing the plan and letting it go; and
//! with reading, where it makes the tree from the same bytes first
//! (`original::reader`) and lets it go as well. No buffer is cleared between
//! calls on any side.

use crate::calls::Calls;
use crate::generate;
use crate::limits;
use crate::original::{self, Said};
use crate::reading;
use crate::rng::Rng;
use cyrs_hir::Statement;
use cyrs_plan::lower::PlanStatement;
use std::hint::black_box;
use std::time::{Duration, Instant};

/// Sheets of one size or shape.
struct Load {
    name: String,
    sheets: Vec<Vec<u8>>,
    trees: Vec<Statement>,
    records: usize,
}

/// How many random sheets of each size: one alone would say more of its own
/// shape than of its size.
const SHEETS: usize = 32;

/// How many variables a sheet of nothing else has.
const VARIABLES: usize = 2_000;

/// How many relationships a chain has.
const CHAIN: usize = 800;

/// How many bytes a sheet of one text has.
const TEXT: usize = 32_768;

/// The sizes of random sheets, in records.
const SIZES: [usize; 5] = [16, 64, 256, 1_024, 2_048];

/// The shapes by name: one sheet each.
const SHAPES: [&str; 5] = ["distinct", "same", "multiples", "chain", "text"];

impl Load {
    fn new(name: String, sheets: Vec<Vec<u8>>) -> Self {
        let mut records = 0;
        let mut tree = |sheet: &Vec<u8>| {
            let verdict = reading::judge(sheet, [16_384; 4]);
            assert_eq!(verdict.answer[0], 0, "the sheets are accepted");
            records += verdict.records.len();
            original::statement(&verdict.records)
        };
        let trees = sheets.iter().map(&mut tree).collect();
        Load { name, sheets, trees, records }
    }

    /// Accepted sheets of exactly so many records.
    fn random(records: usize) -> Self {
        let accepted = |number: u64| {
            let sheet = generate::sheet(&mut Rng::of(5, number), records);
            let verdict = reading::judge(&sheet, [16_384; 4]);
            let good = verdict.answer[0] == 0 && verdict.records.len() == records;
            (good && std::str::from_utf8(&sheet).is_ok()).then_some(sheet)
        };
        let sheets = (0..).filter_map(accepted).take(SHEETS).collect();
        Load::new(format!("{records} records"), sheets)
    }

    /// A list of variables whose ids are the multiples of `step`, all the same
    /// if it is 0: what one such sheet costs more than another is the looking up.
    fn variables(name: &str, step: usize) -> Self {
        let sheet = limits::variables((0..VARIABLES).map(|place| step * place));
        Load::new(format!("{VARIABLES} {name}"), vec![sheet])
    }

    /// The load of this shape.
    fn shaped(shape: &str) -> Option<Self> {
        Some(match shape {
            "distinct" => Load::variables("distinct variables", 1),
            "same" => Load::variables("times one variable", 0),
            "multiples" => Load::variables("multiples of 1024", 1_024),
            "chain" => Load::new(format!("a chain of {CHAIN}"), vec![limits::chain(CHAIN)]),
            "text" => Load::new(format!("{TEXT} bytes, one text"), vec![limits::bytes(TEXT)]),
            _ => return None,
        })
    }

    fn bytes(&self) -> usize {
        self.sheets.iter().map(Vec::len).sum::<usize>() / self.sheets.len()
    }
}

/// What is measured.
#[derive(Clone, Copy, PartialEq)]
enum Side {
    Sizing,
    Ours,
    Rust,
    RustReading,
}

const SIDES: [Side; 4] = [Side::Sizing, Side::Ours, Side::Rust, Side::RustReading];

/// Memory for the calls of all sides.
struct Bench {
    work: [Vec<u32>; 4],
    plan: Vec<u8>,
    out: Vec<u8>,
}

impl Bench {
    fn new() -> Self {
        let work = std::array::from_fn(|_| vec![0; 16_384]);
        Bench { work, plan: vec![0; 1 << 22], out: Vec::with_capacity(1 << 22) }
    }
}

/// The sides, each a function of its own for a profiler to find: their names
/// begin with `side_`, those of the Rust's steps with `step_`.
#[inline(never)]
fn side_sizing(calls: &Calls, sheet: &[u8], bench: &mut Bench) -> usize {
    let mut answer = [0; 6];
    (calls.size)(sheet, bench.work.each_mut().map(|words| &mut words[..]), &mut answer);
    answer[5]
}

#[inline(never)]
fn side_ours(calls: &Calls, sheet: &[u8], bench: &mut Bench) -> usize {
    let lower = calls.lower.expect("the proved calls are both there");
    let mut answer = [0; 6];
    let work = bench.work.each_mut().map(|words| &mut words[..]);
    lower(sheet, work, &mut bench.plan, &mut answer);
    answer[5]
}

#[inline(never)]
fn side_rust(tree: &Statement, bench: &mut Bench) -> usize {
    let plan = step_lower(tree);
    step_print(&plan, &mut bench.out);
    step_drop_plan(plan);
    bench.out.len()
}

#[inline(never)]
fn side_with_reading(sheet: &[u8], bench: &mut Bench) -> usize {
    let tree = step_read(sheet);
    let plan = step_lower(&tree);
    step_print(&plan, &mut bench.out);
    step_drop_plan(plan);
    step_drop_tree(tree);
    bench.out.len()
}

#[inline(never)]
fn step_read(sheet: &[u8]) -> Box<Statement> {
    Box::new(original::reader::statement(sheet).expect("the sheets are accepted"))
}

#[inline(never)]
fn step_lower(tree: &Statement) -> Box<PlanStatement> {
    match original::ask(tree) {
        Said::Plan(plan) => plan,
        Said::Refused(_) => unreachable!("the sheets are accepted"),
    }
}

#[inline(never)]
fn step_print(plan: &PlanStatement, out: &mut Vec<u8>) {
    out.clear();
    original::print::plan(plan, out);
}

#[inline(never)]
fn step_drop_plan(plan: Box<PlanStatement>) {
    drop(plan);
}

#[inline(never)]
fn step_drop_tree(tree: Box<Statement>) {
    drop(tree);
}

impl Side {
    /// The side's name on the command line.
    fn name(self) -> &'static str {
        match self {
            Side::Sizing => "sizing",
            Side::Ours => "ours",
            Side::Rust => "rust",
            Side::RustReading => "rust-reading",
        }
    }

    /// The sheet at this place of a load, once.
    fn go(self, calls: &Calls, load: &Load, place: usize, bench: &mut Bench) -> usize {
        let sheet = &load.sheets[place];
        match self {
            Side::Sizing => side_sizing(calls, sheet, bench),
            Side::Ours => side_ours(calls, sheet, bench),
            Side::Rust => side_rust(&load.trees[place], bench),
            Side::RustReading => side_with_reading(sheet, bench),
        }
    }
}

/// So many bytes of sheets at least are timed as one, if a load has them: the
/// clock itself takes as long as some of a sheet's records.
const TOGETHER: usize = 8_192;

/// For each side the best time for a load, in microseconds for one of its sheets.
/// The sides take turns, so that what else the machine does meets all of them. The
/// best is taken for each few sheets, and added up: few rounds over all of a load
/// go undisturbed.
fn times(calls: &Calls, load: &Load, bench: &mut Bench, least: Duration) -> [f64; 4] {
    let places: Vec<usize> = (0..load.sheets.len()).collect();
    let few: Vec<&[usize]> = places.chunks(TOGETHER.div_ceil(load.bytes())).collect();
    let mut best = [(); 4].map(|()| vec![Duration::MAX; few.len()]);
    let (mut rounds, started) = (0, Instant::now());
    while rounds < 10 || started.elapsed() < least {
        for (side, best) in SIDES.iter().zip(&mut best) {
            for (few, best) in few.iter().zip(best) {
                let before = Instant::now();
                for &place in *few {
                    black_box(side.go(calls, load, place, bench));
                }
                *best = before.elapsed().min(*best);
            }
        }
        rounds += 1;
    }
    best.map(|each| each.iter().sum::<Duration>().as_secs_f64() * 1e6 / places.len() as f64)
}

/// The table of times; each load is measured for so long at least.
pub fn table(calls: &Calls, least: Duration) {
    let mut bench = Bench::new();
    println!(
        "{:<25}{:>7}{:>9}{:>9}{:>10}{:>12}{:>14}{:>12}{:>14}",
        "microseconds a sheet",
        "bytes",
        "records",
        "sizing",
        "ours",
        "tree ready",
        "with reading",
        "ours/tree",
        "ours/reading"
    );
    let random = SIZES.iter().map(|&records| Load::random(records));
    let shaped = SHAPES.iter().map(|shape| Load::shaped(shape).expect("a shape of the list"));
    for load in random.chain(shaped) {
        let [sizing, ours, tree, with_reading] = times(calls, &load, &mut bench, least);
        println!(
            "{:<25}{:>7}{:>9}{sizing:>9.2}{ours:>10.2}{tree:>12.2}{with_reading:>14.2}{:>12.2}{:>14.2}",
            load.name,
            load.bytes(),
            load.records / load.sheets.len(),
            ours / tree,
            ours / with_reading
        );
    }
}

/// One side, or `all` in turn, so many times on each sheet of a load and
/// nothing else behind the making of the load: for a profiler to count.
pub fn count(calls: &Calls, side: &str, load: &str, rounds: usize) -> Result<(), String> {
    let sides: Vec<Side> =
        SIDES.into_iter().filter(|one| side == "all" || side == one.name()).collect();
    if sides.is_empty() {
        return Err(format!("no side {side}: sizing, ours, rust, rust-reading or all"));
    }
    let load = match load.parse() {
        Ok(records) => Load::random(records),
        Err(_) => Load::shaped(load)
            .ok_or(format!("no load {load}: a number of records, or {}", SHAPES.join(", ")))?,
    };
    let (mut bench, mut sum) = (Bench::new(), 0);
    for _ in 0..rounds {
        for side in &sides {
            for place in 0..load.sheets.len() {
                sum += side.go(calls, &load, place, &mut bench);
            }
        }
    }
    println!("{}: {} records in all, {rounds} rounds ({sum})", load.name, load.records);
    Ok(())
}

#[cfg(test)]
mod sides_agree {
    use super::*;
    use crate::calls::PROVED;

    /// What is timed is the same plan on all sides.
    #[test]
    fn the_same_plan() {
        let mut bench = Bench::new();
        let loads = SHAPES.iter().map(|shape| Load::shaped(shape).expect("a shape"));
        for load in loads.chain([Load::random(64)]) {
            for (sheet, tree) in load.sheets.iter().zip(&load.trees) {
                let long = side_ours(&PROVED, sheet, &mut bench);
                let ours = bench.plan[..long].to_vec();
                side_rust(tree, &mut bench);
                assert_eq!(ours, bench.out, "{}", load.name);
                bench.out.clear();
                side_with_reading(sheet, &mut bench);
                assert_eq!(ours, bench.out, "{}", load.name);
            }
        }
    }
}
