//! The Rust's plan as a plan sheet.

use crate::line;
use crate::lines::{Bits, Field};
use crate::original::reader::plain;
use cyrs_plan::lower::PlanStatement;
use cyrs_plan::{
    BinOp, Direction, Expr, ListPredKind, Projection, ReadOp, RelLength, RelSpec, SortDir, UnaryOp,
    UnionKind,
};
use smol_str::SmolStr;

/// Appends the plan sheet.
pub fn plan(plan: &PlanStatement, out: &mut Vec<u8>) {
    plan_without(plan, 0, out);
}

/// The same with the first entries of its map left out: of a pair's plan, those of the left.
pub fn plan_without(plan: &PlanStatement, first: usize, out: &mut Vec<u8>) {
    line!(out, "plan", plan.ops.len(), plan.var_map.len() - first);
    for op in &plan.ops {
        operator(op, out);
    }
    let mut mapped: Vec<_> =
        plan.var_map.iter().skip(first).map(|(var, id)| (var.0, id.0)).collect();
    mapped.sort_unstable();
    for (number, id) in mapped {
        line!(out, "v", number, id);
    }
}

/// A text in the sheet's spelling.
struct Spelled<'t>(&'t str);

/// Texts of so many bytes are copied in runs; a shorter one costs less byte by byte.
const LONG: usize = 16;

fn escape(byte: u8) -> Option<&'static [u8; 2]> {
    match byte {
        b'\t' => Some(b"\\t"),
        b'\n' => Some(b"\\n"),
        b'\\' => Some(b"\\\\"),
        _ => None,
    }
}

impl Field for Spelled<'_> {
    fn put(&self, out: &mut Vec<u8>) {
        let mut rest = self.0.as_bytes();
        while rest.len() >= LONG {
            let (run, behind) = rest.split_at(plain(rest));
            out.extend_from_slice(run);
            let Some((&special, behind)) = behind.split_first() else { return };
            out.extend_from_slice(escape(special).expect("a run ends at one"));
            rest = behind;
        }
        for &byte in rest {
            match escape(byte) {
                Some(two) => out.extend_from_slice(two),
                None => out.push(byte),
            }
        }
    }
}

fn operator(op: &ReadOp, out: &mut Vec<u8>) {
    match op {
        ReadOp::Source { label, bind } => {
            let labels = label.as_ref().map_or(&[][..], |set| &set.0);
            line!(out, "source", bind.0, labels.len());
            names(labels, out);
        }
        ReadOp::Expand { input, from, rel: spec, to, bind_rel, bind_to } => {
            line!(out, "expand", input.0, from.0, bind_rel.0, bind_to.0);
            rel(spec, out);
            line!(out, "to", to.labels.0.len(), to.properties.is_some());
            names(&to.labels.0, out);
            exprs(&to.properties, out);
        }
        ReadOp::Filter { input, predicate } => {
            line!(out, "filter", input.0);
            expr(predicate, out);
        }
        ReadOp::Project { input, items: all } => {
            line!(out, "project", input.0, all.len());
            items(all, out);
        }
        ReadOp::Aggregate { input, keys, aggs } => {
            line!(out, "agg", input.0, keys.len(), aggs.len());
            exprs(keys, out);
            for agg in aggs {
                line!(out, "aggf", Spelled(&agg.func), agg.args.len(), agg.distinct);
                exprs(&agg.args, out);
            }
        }
        ReadOp::OrderBy { input, keys } => {
            line!(out, "order", input.0, keys.len());
            for key in keys {
                line!(out, "key", key.dir == SortDir::Desc);
                expr(&key.expr, out);
            }
        }
        ReadOp::Skip { input, count } => {
            line!(out, "skip", input.0);
            expr(count, out);
        }
        ReadOp::Limit { input, count } => {
            line!(out, "limit", input.0);
            expr(count, out);
        }
        ReadOp::Distinct { input } => line!(out, "distinct", input.0),
        ReadOp::Unwind { input, list, bind } => {
            line!(out, "unwind", input.0, bind.0);
            expr(list, out);
        }
        ReadOp::Union { left, right, kind } => {
            line!(out, "union", left.0, right.0, *kind == UnionKind::All);
        }
        ReadOp::With { input, items: all, filter } => {
            line!(out, "with", input.0, all.len(), filter.is_some());
            items(all, out);
            exprs(filter, out);
        }
        ReadOp::OptionalJoin { input, pattern } => {
            line!(out, "optional", input.0);
            operator(pattern, out);
        }
        ReadOp::ShortestPath { input, from, rel: spec, to, bind_path, all } => {
            line!(out, "short", input.0, from.0, to.0, bind_path.0, *all);
            rel(spec, out);
        }
        ReadOp::BindPath { input, bind_path, elements } => {
            line!(out, "path", input.0, bind_path.0, elements.len());
            for element in elements {
                line!(out, "e", element.0);
            }
        }
        ReadOp::ProcedureCall { input, name, args, yields, optional } => {
            let input = input.map(|op| op.0);
            line!(out, "call", input, Spelled(name), args.len(), yields.len(), *optional);
            exprs(args, out);
            for column in yields {
                line!(out, "yield", Spelled(&column.name), column.var.0);
            }
        }
        _ => panic!("an operator that document 01 does not name: {op:?}"),
    }
}

fn names(names: &[SmolStr], out: &mut Vec<u8>) {
    for name in names {
        line!(out, "name", Spelled(name));
    }
}

fn items(items: &[Projection], out: &mut Vec<u8>) {
    for item in items {
        line!(out, "item", Spelled(&item.alias));
        expr(&item.expr, out);
    }
}

fn rel(spec: &RelSpec, out: &mut Vec<u8>) {
    let dir = match spec.direction {
        Direction::Outgoing => 0u32,
        Direction::Incoming => 1,
        Direction::Undirected => 2,
        _ => panic!("an unknown direction"),
    };
    let (len, min, max) = match spec.length {
        RelLength::Single => ("one", None, None),
        RelLength::Variable { min, max } => ("var", min, max),
        _ => panic!("an unknown length"),
    };
    line!(out, "rel", spec.types.len(), dir, len, min, max, spec.properties.is_some());
    names(&spec.types, out);
    exprs(&spec.properties, out);
}

fn exprs<'a>(exprs: impl IntoIterator<Item = &'a Expr>, out: &mut Vec<u8>) {
    for one in exprs {
        expr(one, out);
    }
}

fn expr(it: &Expr, out: &mut Vec<u8>) {
    match it {
        Expr::Null => line!(out, "null"),
        Expr::Bool(value) => line!(out, "bool", *value),
        Expr::Int(value) => line!(out, "int", *value),
        Expr::Float(value) => line!(out, "float", Bits(value.to_bits())),
        Expr::String(text) => line!(out, "str", Spelled(text)),
        Expr::Var(var) => line!(out, "var", var.0),
        Expr::Param { name } => line!(out, "param", Spelled(name)),
        Expr::Prop { target, prop } => {
            line!(out, "prop", Spelled(prop));
            expr(target, out);
        }
        Expr::Index { target, index } => {
            line!(out, "index");
            expr(target, out);
            expr(index, out);
        }
        Expr::Slice { target, start, end } => {
            line!(out, "slice", start.is_some(), end.is_some());
            expr(target, out);
            exprs(start.as_deref(), out);
            exprs(end.as_deref(), out);
        }
        Expr::List(list) => {
            line!(out, "list", list.len());
            exprs(list, out);
        }
        Expr::Map(pairs) => {
            line!(out, "map", pairs.len());
            for (name, value) in pairs {
                line!(out, "name", Spelled(name));
                expr(value, out);
            }
        }
        Expr::Call { func, args } => {
            line!(out, "fn", Spelled(func), args.len());
            exprs(args, out);
        }
        Expr::BinOp { op, lhs, rhs } => {
            line!(out, "bin", bin_number(*op));
            expr(lhs, out);
            expr(rhs, out);
        }
        Expr::UnaryOp { op, operand } => {
            line!(out, "un", *op == UnaryOp::Not);
            expr(operand, out);
        }
        Expr::Case { scrutinee, arms, otherwise } => {
            line!(out, "case", scrutinee.is_some(), arms.len(), otherwise.is_some());
            exprs(scrutinee.as_deref(), out);
            for (when, then) in arms {
                expr(when, out);
                expr(then, out);
            }
            exprs(otherwise.as_deref(), out);
        }
        Expr::IsNull { operand, negated } => {
            line!(out, "isnull", *negated);
            expr(operand, out);
        }
        Expr::InList { operand, list } => {
            line!(out, "in");
            expr(operand, out);
            expr(list, out);
        }
        Expr::ListPredicate { kind, var, iterable, predicate } => {
            line!(out, "listp", list_number(*kind), var.0, predicate.is_some());
            expr(iterable, out);
            exprs(predicate.as_deref(), out);
        }
        Expr::Exists { pattern } => {
            line!(out, "exists");
            operator(pattern, out);
        }
        _ => panic!("an expression that document 01 does not name: {it:?}"),
    }
}

fn list_number(kind: ListPredKind) -> u32 {
    match kind {
        ListPredKind::Any => 0,
        ListPredKind::All => 1,
        ListPredKind::None => 2,
        ListPredKind::Single => 3,
        _ => panic!("an unknown list predicate"),
    }
}

/// The number of a plan operator in the statement tree's order, which lacks
/// the plan's own `In`.
fn bin_number(op: BinOp) -> u32 {
    match op {
        BinOp::Add => 0,
        BinOp::Sub => 1,
        BinOp::Mul => 2,
        BinOp::Div => 3,
        BinOp::Mod => 4,
        BinOp::Pow => 5,
        BinOp::Eq => 6,
        BinOp::Neq => 7,
        BinOp::Lt => 8,
        BinOp::Le => 9,
        BinOp::Gt => 10,
        BinOp::Ge => 11,
        BinOp::And => 12,
        BinOp::Or => 13,
        BinOp::Xor => 14,
        BinOp::StartsWith => 15,
        BinOp::EndsWith => 16,
        BinOp::Contains => 17,
        BinOp::RegexMatch => 18,
        BinOp::Concat => 19,
        _ => panic!("an operator that the statement tree lacks: {op:?}"),
    }
}
