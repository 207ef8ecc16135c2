//! From a statement of cyrs to a printed plan.
//!
//!     cargo run --release -p cyrs-sheet --example plan
//!
//! cyrs makes the statement from its text, `cyrs_hir::parse_to_hir(text).hir`;
//! here it is put together by hand, since the comparison's copy of cyrs has no
//! parser: MATCH (a:Book) RETURN a.title.

extern crate cyrs_hir;
extern crate cyrs_syntax;
extern crate smol_str;

use cyrs_hir::{
    Clause, Expr, HirId, Pattern, PatternElement, PatternPart, Projection, ShortestPath, Statement,
    VarId,
};
use cyrs_syntax::{TextRange, TextSize};
use smol_str::SmolStr;
use std::error::Error;
use std::io::Write;

fn range(start: u32, end: u32) -> TextRange {
    TextRange::new(TextSize::from(start), TextSize::from(end))
}

fn titles() -> Statement {
    let book = PatternElement::Node {
        id: HirId::DUMMY,
        bind: Some(VarId(7)),
        labels: vec![SmolStr::new("Book")],
        props: None,
        span: range(6, 14),
    };
    let part =
        PatternPart { named_as: None, elements: vec![book], shortest: ShortestPath::default() };
    let title = Expr::Prop { target: Box::new(Expr::Var(VarId(7))), prop: SmolStr::new("title") };
    let mut statement = Statement::new(range(0, 29));
    statement.clauses = vec![
        Clause::Match {
            id: HirId::DUMMY,
            optional: false,
            pattern: Pattern { parts: vec![part] },
            span: range(0, 14),
        },
        Clause::Return {
            id: HirId::DUMMY,
            projections: vec![Projection { expr: title, alias: None, span: range(22, 29) }],
            distinct: false,
            order_by: Vec::new(),
            skip: None,
            limit: None,
            span: range(15, 29),
        },
    ];
    statement
}

fn main() -> Result<(), Box<dyn Error>> {
    let sheet = cyrs_sheet::encode(&titles())?;
    let mut planner = dresserhawk::Planner::new();
    let plan = planner.plan(&sheet)?;
    std::io::stdout().write_all(plan)?;
    Ok(())
}
