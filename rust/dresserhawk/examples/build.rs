//! A search as a typed tree, its statement sheet, and its plan.
//!
//!     cargo run --release --example build

use dresserhawk::sheet::{
    Binary, Clause, Direction, Expr, Item, Key, Node, Part, Rel, Statement, Tail, span,
};
use std::error::Error;
use std::io::Write;

/// Ids of variables.
const COPY: u32 = 1;
const LENT: u32 = 2;
const CLASS: u32 = 3;

/// MATCH (c:Copy)-[l:LENT_TO]->(k:Class) WHERE l.due < $today RETURN k.name AS class, count(c) ORDER BY k.name
fn statement() -> Statement {
    let copy = Node::new(span(6, 14)).bind(COPY).label("Copy");
    let lent = Rel::new(Direction::Outgoing, span(14, 28)).bind(LENT).of_type("LENT_TO");
    let class = Node::new(span(28, 37)).bind(CLASS).label("Class");
    let due = Expr::prop(Expr::var(LENT), "due");
    let name = || Expr::prop(Expr::var(CLASS), "name");
    let items = [
        Item::new(name()).alias("class"),
        Item::new(Expr::call("count", [Expr::var(COPY)], false)),
    ];
    let by_name = Tail { keys: vec![Key::new(name(), false)], ..Tail::default() };
    Statement::new()
        .clause(Clause::matches(false, [Part::new().node(copy).rel(lent).node(class)], span(0, 37)))
        .clause(Clause::filter(Expr::binary(Binary::Lt, due, Expr::param("today")), span(38, 58)))
        .clause(Clause::returns_tail(items, false, by_name, span(59, 107)))
}

fn main() -> Result<(), Box<dyn Error>> {
    let sheet = statement().to_sheet();
    let mut out = std::io::stdout().lock();
    out.write_all(&sheet)?;
    out.write_all(b"\n")?;
    out.write_all(dresserhawk::Planner::new().plan(&sheet)?)?;
    Ok(())
}
