//! The lowering. An operator is kept as its own lines of the plan sheet, so
//! that a copy of it is a copy of bytes.

use super::branch::{Branch, Branches};
use super::sheet::{Form, Length, Record};
use crate::line;
use crate::lines::Bits;
use std::collections::HashMap;

/// What the lowering makes.
pub struct Lowered {
    /// The plan sheet.
    pub plan: Vec<u8>,
    /// How many variable numbers were issued.
    pub numbers: u32,
    /// The branches it went through.
    pub met: Branches,
    /// How many operators it has.
    pub operators: usize,
}

/// Lowers records that the check has passed.
pub fn lower(records: &[Record]) -> Lowered {
    let mut state = State::new(records);
    state.statement();
    state.lowered()
}

/// What the lowering of a pair makes.
pub struct LoweredPair {
    /// The plan, with its counts over both sides.
    pub whole: Lowered,
    /// The branches and operators of each side alone.
    pub met: [Branches; 2],
    /// How many variable numbers each side issued.
    pub numbers: [u32; 2],
    /// Which sides gave no operator.
    pub missing: [bool; 2],
    /// Whether some id is a variable of both sides.
    pub same_id: bool,
}

/// Lowers both sides, which the check has passed, into one plan. `between` is what happens to the
/// variables once the left is lowered: [`Variables::forget`], and something else in a stand-in
/// with a fault.
pub fn lower_pair(
    left: &[Record],
    right: &[Record],
    all: bool,
    between: fn(&mut Variables),
) -> LoweredPair {
    let mut state = State::new(left);
    let left_root = state.statement();
    let left_met = state.met_so_far(0);
    let left_ids = state.variables.numbered.clone();
    let left_numbers = state.variables.next;
    between(&mut state.variables);
    let right_first = state.variables.next;
    let first = state.ops.len();
    state.records = right;
    let right_root = state.statement();
    let right_met = state.met_so_far(first);
    let same_id = state.variables.mapped.iter().any(|(_, id)| left_ids.contains_key(id));
    let left_input = state.input(left_root);
    let right_input = state.input(right_root);
    state.union(left_input, right_input, all);
    let right_numbers = state.variables.next - right_first;
    LoweredPair {
        whole: state.lowered(),
        met: [left_met, right_met],
        numbers: [left_numbers, right_numbers],
        missing: [left_root.is_none(), right_root.is_none()],
        same_id,
    }
}

/// An operator's number.
type Op = usize;

const AGGREGATES: [&str; 10] = [
    "count",
    "sum",
    "avg",
    "min",
    "max",
    "collect",
    "stdev",
    "stdevp",
    "percentilecont",
    "percentiledisc",
];

/// The variables and their numbers.
#[derive(Default)]
pub struct Variables {
    /// The next variable number.
    next: u32,
    numbered: HashMap<u32, u32>,
    /// Number and id of the variables that have one, by number.
    mapped: Vec<(u32, u32)>,
}

impl Variables {
    /// No variable has a number any more; the numbers go on.
    pub fn forget(&mut self) {
        self.numbered.clear();
        self.mapped.clear();
    }
}

struct State<'s> {
    records: &'s [Record<'s>],
    ops: Vec<Vec<u8>>,
    variables: Variables,
    met: Branches,
}

impl<'s> State<'s> {
    fn new(records: &'s [Record<'s>]) -> Self {
        State {
            records,
            ops: Vec::new(),
            variables: Variables::default(),
            met: Branches::default(),
        }
    }

    /// The plan sheet, and all that was met.
    fn lowered(mut self) -> Lowered {
        let mut plan = Vec::new();
        line!(&mut plan, "plan", self.ops.len(), self.variables.mapped.len());
        for op in &self.ops {
            self.met.operator(op);
            plan.extend_from_slice(op);
        }
        for (number, id) in &self.variables.mapped {
            line!(&mut plan, "v", *number, *id);
        }
        let numbers = self.variables.next;
        Lowered { plan, numbers, met: self.met, operators: self.ops.len() }
    }

    /// The branches taken since the last time, and the operators from `first` on.
    fn met_so_far(&mut self, first: usize) -> Branches {
        let mut met = std::mem::take(&mut self.met);
        self.ops[first..].iter().for_each(|op| met.operator(op));
        met
    }

    // ── numbers and operators ──

    fn fresh(&mut self) -> u32 {
        self.variables.next += 1;
        self.variables.next - 1
    }

    fn number(&mut self, id: u32) -> u32 {
        if let Some(&number) = self.variables.numbered.get(&id) {
            self.met.meet(Branch::VariableAgain);
            return number;
        }
        let number = self.fresh();
        self.variables.numbered.insert(id, number);
        self.variables.mapped.push((number, id));
        number
    }

    fn number_or_fresh(&mut self, id: Option<u32>) -> u32 {
        match id {
            Some(id) => self.number(id),
            None => {
                self.met.meet(Branch::Unnamed);
                self.fresh()
            }
        }
    }

    fn push(&mut self, lines: Vec<u8>) -> Op {
        self.ops.push(lines);
        self.ops.len() - 1
    }

    /// A source with no labels.
    fn bare_source(&mut self, bind: u32) -> Op {
        let mut lines = Vec::new();
        line!(&mut lines, "source", bind, 0u32);
        self.push(lines)
    }

    /// The previous operator, or a source-all in its place.
    fn input(&mut self, previous: Option<Op>) -> Op {
        previous.unwrap_or_else(|| {
            self.met.meet(Branch::SourceAll);
            self.bare_source(self.variables.next)
        })
    }

    fn union(&mut self, left: Op, right: Op, all: bool) -> Op {
        let mut lines = Vec::new();
        line!(&mut lines, "union", left, right, all);
        self.push(lines)
    }

    // ── statement and clauses ──

    /// The whole statement: the operator it leaves.
    fn statement(&mut self) -> Option<Op> {
        let Form::Stmt { clauses, arms } = self.records[0].form else {
            unreachable!("a sheet begins with its statement")
        };
        let (mut left, mut at) = self.clauses(1, clauses);
        for _ in 0..arms {
            let Form::Arm { all, clauses } = self.records[at].form else {
                unreachable!("an arm is due")
            };
            let (right, end) = self.clauses(at + 1, clauses);
            self.met.meet_if(left.is_none(), Branch::UnionLeftMissing);
            self.met.meet_if(right.is_none(), Branch::UnionRightMissing);
            let left_input = self.input(left);
            let right_input = self.input(right);
            left = Some(self.union(left_input, right_input, all));
            at = end;
        }
        left
    }

    /// So many clauses from `at` on: the operator they leave, and where they end.
    fn clauses(&mut self, mut at: usize, count: u32) -> (Option<Op>, usize) {
        let mut previous = None;
        for _ in 0..count {
            previous = Some(self.clause(at, previous));
            at = self.records[at].end;
        }
        (previous, at)
    }

    fn clause(&mut self, at: usize, previous: Option<Op>) -> Op {
        let first = at + 1;
        match self.records[at].form {
            Form::Match { optional, parts, .. } => self.match_(first, parts, optional, previous),
            Form::Where { .. } => {
                let mut predicate = Vec::new();
                self.expr(first, &mut predicate);
                let input = self.input(previous);
                self.filter(input, &predicate)
            }
            Form::With { items, filter, keys, skip, limit, .. } => {
                let input = self.input(previous);
                let (with, at) = self.with(first, input, items, filter);
                self.tail(at, with, keys, skip, limit)
            }
            Form::Return { items, distinct, keys, skip, limit, .. } => {
                let input = self.input(previous);
                let (mut op, at) = self.return_(first, input, items);
                if distinct {
                    self.met.meet(Branch::Distinct);
                    let mut lines = Vec::new();
                    line!(&mut lines, "distinct", op);
                    op = self.push(lines);
                }
                self.tail(at, op, keys, skip, limit)
            }
            Form::Unwind { var, .. } => {
                let input = self.input(previous);
                let mut list = Vec::new();
                self.expr(first, &mut list);
                let var = self.number(var);
                let mut lines = Vec::new();
                line!(&mut lines, "unwind", input, var);
                lines.extend(list);
                self.push(lines)
            }
            Form::Call { name, args, yields, optional, .. } => {
                self.met.meet_if(previous.is_none(), Branch::CallFirst);
                self.met.meet_if(previous.is_some(), Branch::CallOn);
                let mut lines = Vec::new();
                line!(&mut lines, "call", previous, name, args, yields, optional);
                let behind = self.exprs(first, args, &mut lines);
                for at in behind..behind + yields as usize {
                    let Form::Yield { name, var } = self.records[at].form else {
                        unreachable!("a yield is due")
                    };
                    let var = self.number(var);
                    line!(&mut lines, "yield", name, var);
                }
                self.push(lines)
            }
            form => unreachable!("{form:?} is no clause that reads"),
        }
    }

    fn filter(&mut self, input: Op, predicate: &[u8]) -> Op {
        let mut lines = Vec::new();
        line!(&mut lines, "filter", input);
        lines.extend_from_slice(predicate);
        self.push(lines)
    }

    fn match_(&mut self, at: usize, parts: u32, optional: bool, previous: Option<Op>) -> Op {
        let root = self.parts(at, parts);
        self.met.meet_if(optional && previous.is_none(), Branch::OptionalFirst);
        self.met.meet_if(!optional && previous.is_some(), Branch::MatchDropsInput);
        let (true, Some(previous)) = (optional, previous) else { return root };
        self.met.meet(Branch::OptionalOn);
        let mut lines = Vec::new();
        line!(&mut lines, "optional", previous);
        lines.extend_from_slice(&self.ops[root]);
        self.push(lines)
    }

    fn with(&mut self, at: usize, input: Op, items: u32, filter: bool) -> (Op, usize) {
        let mut lines = Vec::new();
        line!(&mut lines, "with", input, items, filter);
        let at = self.items(at, items, &mut lines);
        self.met.meet_if(filter, Branch::WithFilter);
        let at = self.exprs(at, filter.into(), &mut lines);
        (self.push(lines), at)
    }

    fn return_(&mut self, at: usize, mut input: Op, items: u32) -> (Op, usize) {
        let (mut keys, mut aggs) = (Vec::new(), Vec::new());
        let (mut key_count, mut agg_count) = (0u32, 0u32);
        let mut item = at;
        for _ in 0..items {
            match self.records[item + 1].form {
                Form::Fn { name, args, distinct } if is_aggregate(name) => {
                    agg_count += 1;
                    line!(&mut aggs, "aggf", name, args, distinct);
                    self.exprs(item + 2, args, &mut aggs);
                }
                _ => {
                    key_count += 1;
                    self.expr(item + 1, &mut keys);
                }
            }
            item = self.records[item].end;
        }
        if agg_count > 0 {
            self.met.meet(if key_count > 0 { Branch::AggregateKeys } else { Branch::Aggregate });
            let mut lines = Vec::new();
            line!(&mut lines, "agg", input, key_count, agg_count);
            lines.extend(keys);
            lines.extend(aggs);
            input = self.push(lines);
        }
        let mut lines = Vec::new();
        line!(&mut lines, "project", input, items);
        let at = self.items(at, items, &mut lines);
        (self.push(lines), at)
    }

    /// Order, skip and limit.
    fn tail(&mut self, mut at: usize, mut op: Op, keys: u32, skip: bool, limit: bool) -> Op {
        if keys > 0 {
            let mut lines = Vec::new();
            line!(&mut lines, "order", op, keys);
            for _ in 0..keys {
                let Form::Key { descending } = self.records[at].form else {
                    unreachable!("a key is due")
                };
                line!(&mut lines, "key", descending);
                at = self.expr(at + 1, &mut lines);
            }
            op = self.push(lines);
        }
        for (there, word) in [(skip, "skip"), (limit, "limit")] {
            if there {
                let mut lines = Vec::new();
                line!(&mut lines, word, op);
                at = self.expr(at, &mut lines);
                op = self.push(lines);
            }
        }
        op
    }

    fn items(&mut self, mut at: usize, count: u32, out: &mut Vec<u8>) -> usize {
        for _ in 0..count {
            let Form::Item { alias } = self.records[at].form else {
                unreachable!("an item is due")
            };
            match (alias, self.records[at + 1].form) {
                (Some(alias), _) => line!(out, "item", alias),
                (None, Form::Var(id)) => {
                    self.met.meet(Branch::AliasOfVariable);
                    line!(out, "item", format!("_v{id}").as_str());
                }
                (None, Form::Prop(name)) => {
                    self.met.meet(Branch::AliasOfProperty);
                    line!(out, "item", name);
                }
                (None, Form::Fn { name, .. }) => {
                    self.met.meet(Branch::AliasOfFunction);
                    line!(out, "item", name);
                }
                (None, _) => {
                    self.met.meet(Branch::AliasOfOther);
                    line!(out, "item", "_");
                }
            }
            at = self.expr(at + 1, out);
        }
        at
    }

    // ── patterns ──

    /// So many parts from `at` on: the last one's root.
    fn parts(&mut self, mut at: usize, count: u32) -> Op {
        if count == 0 {
            self.met.meet(Branch::NoParts);
            let bind = self.fresh();
            return self.bare_source(bind);
        }
        self.met.meet_if(count > 1, Branch::PartsUnread);
        let mut root = 0;
        for _ in 0..count {
            root = self.part(at);
            at = self.records[at].end;
        }
        root
    }

    fn part(&mut self, at: usize) -> Op {
        let Form::Part { var, shortest, elements } = self.records[at].form else {
            unreachable!("a part is due")
        };
        let mut places = Vec::new();
        let mut next = at + 1;
        for _ in 0..elements {
            places.push(next);
            next = self.records[next].end;
        }
        if shortest > 0 {
            if let [start, rel, end] = places[..] {
                let rels =
                    [start, rel, end].map(|at| matches!(self.records[at].form, Form::Rel { .. }));
                if rels == [false, true, false] {
                    return self.shortest(var, shortest == 2, start, rel, end);
                }
            }
            self.met.meet(Branch::ShortestAsChain);
        }
        self.chain(var, &places)
    }

    fn shortest(
        &mut self,
        var: Option<u32>,
        all: bool,
        start: usize,
        rel: usize,
        end: usize,
    ) -> Op {
        self.met.meet(if all { Branch::AllShortest } else { Branch::Shortest });
        let (from, input) = self.source(start);
        let Form::Rel { var: rel_var, .. } = self.records[rel].form else {
            unreachable!("tested above")
        };
        self.number_or_fresh(rel_var);
        let mut spec = Vec::new();
        self.rel(rel, &mut spec);
        let Form::Node { var: end_var, labels, props, .. } = self.records[end].form else {
            unreachable!("tested above")
        };
        self.met.meet_if(labels > 0 || props, Branch::ShortestEndVanishes);
        let to = self.number_or_fresh(end_var);
        let path = self.number_or_fresh(var);
        let mut lines = Vec::new();
        line!(&mut lines, "short", input, from, to, path, all);
        lines.extend(spec);
        self.push(lines)
    }

    /// A node that makes a source: its number, and the source or its filter.
    fn source(&mut self, at: usize) -> (u32, Op) {
        let Form::Node { var, labels, props, .. } = self.records[at].form else {
            unreachable!("a node is at hand")
        };
        let number = self.number_or_fresh(var);
        let mut lines = Vec::new();
        line!(&mut lines, "source", number, labels);
        let behind = self.names(at + 1, labels, &mut lines);
        let mut op = self.push(lines);
        if props {
            self.met.meet(Branch::SourceFilter);
            let mut predicate = Vec::new();
            self.expr(behind, &mut predicate);
            op = self.filter(op, &predicate);
        }
        (number, op)
    }

    fn chain(&mut self, var: Option<u32>, places: &[usize]) -> Op {
        let mut numbers = Vec::new();
        let mut pending = None;
        let mut root = None;
        for (place, &at) in places.iter().enumerate() {
            if matches!(self.records[at].form, Form::Rel { .. }) {
                self.met.meet_if(pending.is_some(), Branch::TwoRels);
                self.met.meet_if(place + 1 == places.len(), Branch::RelAtEnd);
                pending = Some(at);
                continue;
            }
            match (pending.take(), root, numbers.last()) {
                (Some(rel), Some(input), Some(&from)) => {
                    let (to, rel_number, op) = self.expand(input, from, rel, at);
                    numbers.extend([rel_number, to]);
                    root = Some(op);
                }
                _ => {
                    self.met.meet_if(place > 0, Branch::NodeAfterNode);
                    let (number, op) = self.source(at);
                    numbers.push(number);
                    root = Some(op);
                }
            }
        }
        let root = root.expect("the check has seen a node first");
        let Some(var) = var else { return root };
        self.met.meet(Branch::NamedPath);
        let path = self.number(var);
        let mut lines = Vec::new();
        line!(&mut lines, "path", root, path, numbers.len());
        for number in numbers {
            line!(&mut lines, "e", number);
        }
        self.push(lines)
    }

    /// One step of a chain: the far node's number, the rel's, the operator.
    fn expand(&mut self, input: Op, from: u32, rel: usize, node: usize) -> (u32, u32, Op) {
        let Form::Node { var, labels, props, .. } = self.records[node].form else {
            unreachable!("a node is at hand")
        };
        let Form::Rel { var: rel_var, .. } = self.records[rel].form else {
            unreachable!("a rel is pending")
        };
        let to = self.number_or_fresh(var);
        let rel_number = self.number_or_fresh(rel_var);
        let mut lines = Vec::new();
        line!(&mut lines, "expand", input, from, rel_number, to);
        self.rel(rel, &mut lines);
        line!(&mut lines, "to", labels, props);
        let behind = self.names(node + 1, labels, &mut lines);
        self.exprs(behind, props.into(), &mut lines);
        (to, rel_number, self.push(lines))
    }

    /// A rel without variable and span, its props lowered here.
    fn rel(&mut self, at: usize, out: &mut Vec<u8>) {
        let Form::Rel { types, dir, len, props, .. } = self.records[at].form else {
            unreachable!("a rel is at hand")
        };
        match len {
            Length::One => line!(out, "rel", types, dir, "one", "-", "-", props),
            Length::Var(min, max) => line!(out, "rel", types, dir, "var", min, max, props),
        }
        let behind = self.names(at + 1, types, out);
        self.exprs(behind, props.into(), out);
    }

    fn names(&mut self, at: usize, count: u32, out: &mut Vec<u8>) -> usize {
        let behind = at + count as usize;
        for record in &self.records[at..behind] {
            let Form::Name(name) = record.form else { unreachable!("a name is due") };
            line!(out, "name", name);
        }
        behind
    }

    // ── expressions ──

    fn exprs(&mut self, mut at: usize, count: u32, out: &mut Vec<u8>) -> usize {
        for _ in 0..count {
            at = self.expr(at, out);
        }
        at
    }

    /// The expression at `at`: where the record behind it stands.
    fn expr(&mut self, at: usize, out: &mut Vec<u8>) -> usize {
        let Record { form, end } = self.records[at];
        match form {
            Form::Null => line!(out, "null"),
            Form::Bool(value) => line!(out, "bool", value),
            Form::Int(value) => line!(out, "int", value),
            Form::Float(bits) => line!(out, "float", Bits(bits)),
            Form::Str(text) => line!(out, "str", text),
            Form::Var(id) => {
                let number = self.number(id);
                line!(out, "var", number);
            }
            Form::Param(name) => line!(out, "param", name),
            Form::Prop(name) => line!(out, "prop", name),
            Form::Index => line!(out, "index"),
            Form::Slice { start, end } => line!(out, "slice", start, end),
            Form::List(n) => line!(out, "list", n),
            Form::Map(n) => {
                line!(out, "map", n);
                let mut at = at + 1;
                for _ in 0..n {
                    at = self.names(at, 1, out);
                    at = self.expr(at, out);
                }
                return end;
            }
            Form::Fn { name, args, .. } => line!(out, "fn", name, args),
            Form::Bin(op) => line!(out, "bin", op),
            Form::Un(op) => line!(out, "un", op),
            Form::Case { scrutinee, arms, otherwise } => {
                line!(out, "case", scrutinee, arms, otherwise);
            }
            Form::IsNull { negated } => line!(out, "isnull", negated),
            Form::In => line!(out, "in"),
            Form::Pat(parts) => {
                let root = self.parts(at + 1, parts);
                line!(out, "exists");
                out.extend_from_slice(&self.ops[root]);
                return end;
            }
            Form::Listp { kind, var, pred } => {
                let var = self.number(var);
                line!(out, "listp", kind, var, pred);
            }
            form => unreachable!("{form:?} is no expression that the check passes"),
        }
        // The children of all the others are expressions.
        let mut child = at + 1;
        while child < end {
            child = self.expr(child, out);
        }
        end
    }
}

fn is_aggregate(name: &[u8]) -> bool {
    AGGREGATES.iter().any(|known| known.as_bytes().eq_ignore_ascii_case(name))
}
