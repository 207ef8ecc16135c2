//! What a call answers, as Rust types.

use std::fmt;

/// A part of the source text, in bytes.
#[derive(Debug, Clone, Copy, PartialEq, Eq)]
pub struct Span {
    pub start: u32,
    pub end: u32,
}

/// An expression that has to be desugared before the lowering.
#[derive(Debug, Clone, Copy, PartialEq, Eq)]
pub enum Undesugared {
    ListComprehension,
    PatternComprehension,
    MapProjection,
    ExistsSubqueryDeferred,
}

/// Why a sheet is refused. Lines count from 1.
#[derive(Debug, Clone, Copy, PartialEq, Eq)]
pub enum Refusal {
    /// 1: a work slice has under 16,384 words. A [`Planner`](crate::Planner) never has such a slice.
    ShortWork,
    /// 2: the sheet has over 32,768 bytes.
    LongSheet,
    /// 3: this line is not the record that is due, or a record that is due is missing.
    BadLine { line: u32 },
    /// 4: over 2,048 records, or deeper than 64.
    BigTree { line: u32 },
    /// 5: a clause that writes.
    WriteClause { line: u32 },
    /// 6: a name that was not resolved, in the clause or element of this span.
    Unresolved { line: u32, span: Span },
    /// 7: an expression that was not desugared.
    Undesugared { line: u32, span: Span, kind: Undesugared },
    /// 8: a part of a pattern that has no elements or begins with a relationship.
    EmptyPart { line: u32, span: Span },
    /// 9: the plan has over 2,048 operators or variable numbers.
    PlanFull,
    /// 10: the plan slice is shorter than the plan. A [`Planner`](crate::Planner) makes room instead.
    NoRoom,
}

impl Refusal {
    /// The number in the table of refusals, 1 to 10.
    pub fn number(self) -> u32 {
        match self {
            Refusal::ShortWork => 1,
            Refusal::LongSheet => 2,
            Refusal::BadLine { .. } => 3,
            Refusal::BigTree { .. } => 4,
            Refusal::WriteClause { .. } => 5,
            Refusal::Unresolved { .. } => 6,
            Refusal::Undesugared { .. } => 7,
            Refusal::EmptyPart { .. } => 8,
            Refusal::PlanFull => 9,
            Refusal::NoRoom => 10,
        }
    }
}

impl fmt::Display for Refusal {
    fn fmt(&self, f: &mut fmt::Formatter<'_>) -> fmt::Result {
        match self {
            Refusal::ShortWork => write!(f, "a work slice is too short"),
            Refusal::LongSheet => write!(f, "the sheet has over 32,768 bytes"),
            Refusal::BadLine { line } => write!(f, "line {line}: not the record that is due"),
            Refusal::BigTree { line } => write!(f, "line {line}: too many records, or too deep"),
            Refusal::WriteClause { line } => write!(f, "line {line}: a clause that writes"),
            Refusal::Unresolved { line, span } => {
                write!(f, "line {line}: unresolved name at {}..{}", span.start, span.end)
            }
            Refusal::Undesugared { line, span, kind } => {
                write!(f, "line {line}: {kind:?} left at {}..{}", span.start, span.end)
            }
            Refusal::EmptyPart { line, span } => {
                write!(f, "line {line}: empty pattern part at {}..{}", span.start, span.end)
            }
            Refusal::PlanFull => write!(f, "the plan has over 2,048 operators or variables"),
            Refusal::NoRoom => write!(f, "the plan is longer than the slice for it"),
        }
    }
}

impl std::error::Error for Refusal {}

/// One of the two sheets of a pair, by the number that an answer has for it.
#[derive(Debug, Clone, Copy, PartialEq, Eq)]
pub enum Side {
    Left = 1,
    Right = 2,
}

impl fmt::Display for Side {
    fn fmt(&self, f: &mut fmt::Formatter<'_>) -> fmt::Result {
        f.write_str(match self {
            Side::Left => "left",
            Side::Right => "right",
        })
    }
}

/// Why a pair of sheets is refused, and which of the two. Line and span are
/// those of that sheet.
#[derive(Debug, Clone, Copy, PartialEq, Eq)]
pub struct PairRefusal {
    /// None for refusals 1, 9 and 10, which are of the call and its one plan.
    pub side: Option<Side>,
    pub refusal: Refusal,
}

impl fmt::Display for PairRefusal {
    fn fmt(&self, f: &mut fmt::Formatter<'_>) -> fmt::Result {
        match self.side {
            Some(side) => write!(f, "{side} sheet: {}", self.refusal),
            None => self.refusal.fmt(f),
        }
    }
}

impl std::error::Error for PairRefusal {}

/// The refusal without its side.
impl From<PairRefusal> for Refusal {
    fn from(refused: PairRefusal) -> Refusal {
        refused.refusal
    }
}

/// Six words as the calls write them: the length, or the refusal.
pub(crate) fn told(words: [usize; 6]) -> Result<usize, Refusal> {
    // Only the length can need more than 32 bits.
    let [number, line, start, end, kind, length] = words;
    let line = line as u32;
    let span = Span { start: start as u32, end: end as u32 };
    Err(match number {
        0 => return Ok(length),
        1 => Refusal::ShortWork,
        2 => Refusal::LongSheet,
        3 => Refusal::BadLine { line },
        4 => Refusal::BigTree { line },
        5 => Refusal::WriteClause { line },
        6 => Refusal::Unresolved { line, span },
        7 => Refusal::Undesugared { line, span, kind: undesugared(kind) },
        8 => Refusal::EmptyPart { line, span },
        9 => Refusal::PlanFull,
        10 => Refusal::NoRoom,
        _ => unreachable!("the contract has numbers 0 to 10"),
    })
}

/// Six words as the call with two sheets writes them.
pub(crate) fn told_pair(words: [usize; 6]) -> Result<usize, PairRefusal> {
    let [number, line, start, end, kind, length] = words;
    // Refusal 7 has the side in the tens and the form in the ones; where another
    // has a side, it is the whole kind.
    let (side, form) = if number == 7 { (kind / 10, kind % 10) } else { (kind, 0) };
    let side = match side {
        0 => None,
        1 => Some(Side::Left),
        2 => Some(Side::Right),
        _ => unreachable!("the contract has sides 1 and 2"),
    };
    told([number, line, start, end, form, length]).map_err(|refusal| PairRefusal { side, refusal })
}

fn undesugared(kind: usize) -> Undesugared {
    match kind {
        0 => Undesugared::ListComprehension,
        1 => Undesugared::PatternComprehension,
        2 => Undesugared::MapProjection,
        3 => Undesugared::ExistsSubqueryDeferred,
        _ => unreachable!("the contract has kinds 0 to 3"),
    }
}
