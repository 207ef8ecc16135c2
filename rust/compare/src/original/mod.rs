//! The Rust itself: its statement tree made from records, its own
//! `lower_statement` and `lower_union_pair`, and its plan printed as document 01
//! has it.

pub mod print;
pub mod reader;
pub mod tree;

use crate::reading::sheet::Record;
use cyrs_hir::{HirId, Statement, UnionArm};
use cyrs_plan::lower::{PlanStatement, lower_statement, lower_union_pair};
use cyrs_plan::{PlanLowerError, ReadOp, UnionKind};

/// What the Rust says of a sheet that is well-formed and read-only.
pub enum Said {
    /// Number, start, end and kind. It gives no line.
    Refused([usize; 4]),
    /// Its plan.
    Plan(Box<PlanStatement>),
}

/// The Rust's answer. The records' texts have to be UTF-8.
pub fn ask(statement: &Statement) -> Said {
    match lower_statement(statement) {
        Ok(plan) => Said::Plan(Box::new(plan)),
        Err(error) => Said::Refused(refusal(&error)),
    }
}

/// The statement tree of these records.
pub fn statement(records: &[Record]) -> Statement {
    tree::statement(records)
}

fn refusal(error: &PlanLowerError) -> [usize; 4] {
    let (number, span, kind) = match error {
        PlanLowerError::UnresolvedName { span, .. } => (6, span, 0),
        PlanLowerError::UndesugaredExpr { kind, span } => {
            let known = tree::UNDESUGARED.iter().position(|name| name == kind);
            (7, span, known.expect("one of the four kinds"))
        }
        PlanLowerError::EmptyPatternPart { span } => (8, span, 0),
        _ => panic!("an error that document 01 does not name: {error}"),
    };
    let place = |offset| u32::from(offset) as usize;
    [number, place(span.start()), place(span.end()), kind]
}

/// How many variable numbers the Rust issues. Its counter is private, but a
/// source-all binds the next number without taking it: one more empty arm ends
/// in a source-all and a union, so the last operator but one tells the counter.
pub fn numbers_issued(mut statement: Statement) -> usize {
    statement.unions.push(empty_arm());
    let plan = lower_statement(&statement).expect("an empty arm adds no fault");
    bound(&plan.ops[plan.ops.len() - 2])
}

fn empty_arm() -> UnionArm {
    UnionArm { id: HirId::DUMMY, all: false, clauses: Vec::new(), span: tree::range((0, 0)) }
}

/// What a source-all binds.
fn bound(op: &ReadOp) -> usize {
    match op {
        ReadOp::Source { label: None, bind } => bind.0 as usize,
        other => panic!("not a source-all: {other:?}"),
    }
}

/// What the Rust says of a pair.
pub enum SaidOfPair {
    /// Number, start, end and kind, with the side in it.
    Refused([usize; 4]),
    /// Its plan, and how many of its map's entries are the left's.
    Plan(Box<PlanStatement>, usize),
    /// A plan whose map does not begin with the left's own.
    OtherMap,
}

fn kind(all: bool) -> UnionKind {
    if all { UnionKind::All } else { UnionKind::Distinct }
}

/// The Rust's answer to a pair. Its refusal does not tell the side, but which side it is can be
/// seen: the left is looked at first, so it is the left if the Rust refuses the left alone.
///
/// Its map has a new number as key with each entry, so no entry is ever replaced, and they stand in
/// the order in which they came: first all of the left, which are those of the left lowered
/// alone, since the left is lowered from an empty state in both cases.
pub fn ask_pair(left: &Statement, right: &Statement, all: bool) -> SaidOfPair {
    let alone = lower_statement(left);
    match lower_union_pair(left, right, kind(all)) {
        Ok(plan) => {
            let alone = alone.expect("the Rust refuses no left whose pair it lowers").var_map;
            let count = alone.len();
            if plan.var_map.iter().take(count).eq(alone.iter()) {
                SaidOfPair::Plan(Box::new(plan), count)
            } else {
                SaidOfPair::OtherMap
            }
        }
        Err(error) => {
            let side = if alone.is_err() { 1 } else { 2 };
            let [number, start, end, kind] = refusal(&error);
            let kind = if number == 7 { 10 * side + kind } else { side };
            SaidOfPair::Refused([number, start, end, kind])
        }
    }
}

/// How many variable numbers the Rust issues for both sides, by one more empty arm of the right,
/// as in [`numbers_issued`]. Behind that arm's union stands the pair's own, and a source-all
/// between the two if the left gave no operator.
pub fn numbers_of_pair(left: &Statement, mut right: Statement, all: bool) -> usize {
    right.unions.push(empty_arm());
    let plan = lower_union_pair(left, &right, kind(all)).expect("an empty arm adds no fault");
    let before = &plan.ops[..plan.ops.len() - 1];
    match before {
        [.., ReadOp::Source { .. }, ReadOp::Union { .. }] => bound(&before[before.len() - 2]),
        _ => bound(&before[before.len() - 1]),
    }
}
