//! From records to the statement tree of cyrs-hir.

use crate::reading::sheet::{Form, Length, Record, Span};
use cyrs_hir::{
    BinOp, Clause, Direction, Expr, HirId, ListPredKind, OrderItem, Pattern, PatternElement,
    PatternPart, Projection, RelLength, ShortestPath, Statement, UnaryOp, UnionArm, VarId,
    YieldItem,
};
use cyrs_syntax::{TextRange, TextSize};
use smol_str::SmolStr;

/// The forms of `undes`, by kind, in the Rust's words.
pub const UNDESUGARED: [&str; 4] =
    ["ListComprehension", "PatternComprehension", "MapProjection", "ExistsSubqueryDeferred"];

pub const BIN_OPS: [BinOp; 20] = [
    BinOp::Add,
    BinOp::Sub,
    BinOp::Mul,
    BinOp::Div,
    BinOp::Mod,
    BinOp::Pow,
    BinOp::Eq,
    BinOp::Neq,
    BinOp::Lt,
    BinOp::Le,
    BinOp::Gt,
    BinOp::Ge,
    BinOp::And,
    BinOp::Or,
    BinOp::Xor,
    BinOp::StartsWith,
    BinOp::EndsWith,
    BinOp::Contains,
    BinOp::RegexMatch,
    BinOp::Concat,
];

pub const LIST_KINDS: [ListPredKind; 4] =
    [ListPredKind::Any, ListPredKind::All, ListPredKind::None, ListPredKind::Single];

pub const ID: HirId = HirId::DUMMY;

pub fn range(span: Span) -> TextRange {
    TextRange::new(TextSize::from(span.0), TextSize::from(span.1))
}

/// Statement, arms, items and keys have no span on the sheet; the Rust never
/// reports theirs.
pub fn no_span() -> TextRange {
    range((0, 0))
}

/// The tree of a well-formed, read-only sheet.
pub fn statement(records: &[Record]) -> Statement {
    let mut walk = Walk { records, at: 0 };
    let Form::Stmt { clauses, arms } = walk.next() else {
        unreachable!("a sheet begins with its statement")
    };
    let mut statement = Statement::new(no_span());
    statement.clauses = walk.many(clauses, Walk::clause);
    statement.unions = walk.many(arms, Walk::arm);
    statement
}

/// A walk over the records in sheet order.
struct Walk<'r, 's> {
    records: &'r [Record<'s>],
    at: usize,
}

impl<'s> Walk<'_, 's> {
    fn next(&mut self) -> Form<'s> {
        self.at += 1;
        self.records[self.at - 1].form
    }

    fn many<T>(&mut self, count: u32, mut one: impl FnMut(&mut Self) -> T) -> Vec<T> {
        (0..count).map(|_| one(self)).collect()
    }

    fn flagged(&mut self, there: bool) -> Option<Expr> {
        there.then(|| self.expr())
    }

    fn boxed(&mut self) -> Box<Expr> {
        Box::new(self.expr())
    }

    fn flagged_box(&mut self, there: bool) -> Option<Box<Expr>> {
        there.then(|| self.boxed())
    }

    fn arm(&mut self) -> UnionArm {
        let Form::Arm { all, clauses } = self.next() else { unreachable!("an arm is due") };
        UnionArm { id: ID, all, clauses: self.many(clauses, Walk::clause), span: no_span() }
    }

    fn clause(&mut self) -> Clause {
        match self.next() {
            Form::Match { optional, parts, span } => {
                Clause::Match { id: ID, optional, pattern: self.pattern(parts), span: range(span) }
            }
            Form::Where { span } => {
                Clause::Where { id: ID, predicate: self.expr(), span: range(span) }
            }
            Form::With { items, filter, keys, skip, limit, span } => Clause::With {
                id: ID,
                projections: self.many(items, Walk::item),
                filter: self.flagged(filter),
                order_by: self.many(keys, Walk::key),
                skip: self.flagged(skip),
                limit: self.flagged(limit),
                span: range(span),
            },
            Form::Return { items, distinct, keys, skip, limit, span } => Clause::Return {
                id: ID,
                projections: self.many(items, Walk::item),
                distinct,
                order_by: self.many(keys, Walk::key),
                skip: self.flagged(skip),
                limit: self.flagged(limit),
                span: range(span),
            },
            Form::Unwind { var, span } => {
                Clause::Unwind { id: ID, list: self.expr(), bind: VarId(var), span: range(span) }
            }
            Form::Call { name, args, yields, optional, span } => Clause::Call {
                id: ID,
                procedure: text(name),
                args: self.many(args, Walk::expr),
                yields: self.many(yields, Walk::yield_),
                optional,
                span: range(span),
            },
            form => unreachable!("{form:?} is no clause that reads"),
        }
    }

    fn item(&mut self) -> Projection {
        let Form::Item { alias } = self.next() else { unreachable!("an item is due") };
        Projection { expr: self.expr(), alias: alias.map(text), span: no_span() }
    }

    fn key(&mut self) -> OrderItem {
        let Form::Key { descending } = self.next() else { unreachable!("a key is due") };
        OrderItem { expr: self.expr(), descending, span: no_span() }
    }

    fn yield_(&mut self) -> YieldItem {
        let Form::Yield { name, var } = self.next() else { unreachable!("a yield is due") };
        YieldItem { name: text(name), alias: None, var: VarId(var) }
    }

    fn pattern(&mut self, parts: u32) -> Pattern {
        Pattern { parts: self.many(parts, Walk::part) }
    }

    fn part(&mut self) -> PatternPart {
        let Form::Part { var, shortest, elements } = self.next() else {
            unreachable!("a part is due")
        };
        PatternPart {
            named_as: var.map(VarId),
            elements: self.many(elements, Walk::element),
            shortest: match shortest {
                0 => ShortestPath::No,
                1 => ShortestPath::Shortest,
                _ => ShortestPath::AllShortest,
            },
        }
    }

    fn element(&mut self) -> PatternElement {
        match self.next() {
            Form::Node { var, labels, props, span } => PatternElement::Node {
                id: ID,
                bind: var.map(VarId),
                labels: self.many(labels, Walk::name),
                props: self.flagged(props),
                span: range(span),
            },
            Form::Rel { var, types, dir, len, props, span } => PatternElement::Rel {
                id: ID,
                bind: var.map(VarId),
                types: self.many(types, Walk::name),
                direction: [Direction::Outgoing, Direction::Incoming, Direction::Undirected]
                    [dir as usize],
                length: match len {
                    Length::One => RelLength::Single,
                    Length::Var(min, max) => RelLength::Variable { min, max },
                },
                props: self.flagged(props),
                span: range(span),
            },
            form => unreachable!("{form:?} is no element"),
        }
    }

    fn name(&mut self) -> SmolStr {
        let Form::Name(name) = self.next() else { unreachable!("a name is due") };
        text(name)
    }

    fn expr(&mut self) -> Expr {
        match self.next() {
            Form::Null => Expr::Null,
            Form::Bool(value) => Expr::Bool(value),
            Form::Int(value) => Expr::Int(value),
            Form::Float(bits) => Expr::Float(f64::from_bits(bits)),
            Form::Str(value) => Expr::String(text(value)),
            Form::Var(id) => Expr::Var(VarId(id)),
            Form::Param(name) => Expr::Param(text(name)),
            Form::Prop(name) => Expr::Prop { target: self.boxed(), prop: text(name) },
            Form::Index => Expr::Index { target: self.boxed(), index: self.boxed() },
            Form::Slice { start, end } => Expr::Slice {
                target: self.boxed(),
                start: self.flagged_box(start),
                end: self.flagged_box(end),
            },
            Form::List(n) => Expr::List(self.many(n, Walk::expr)),
            Form::Map(n) => Expr::Map(self.many(n, |walk| (walk.name(), walk.expr()))),
            Form::Fn { name, args, distinct } => {
                Expr::Call { name: text(name), args: self.many(args, Walk::expr), distinct }
            }
            Form::Bin(op) => {
                Expr::BinOp { op: BIN_OPS[op as usize], lhs: self.boxed(), rhs: self.boxed() }
            }
            Form::Un(op) => Expr::UnaryOp {
                op: [UnaryOp::Neg, UnaryOp::Not][op as usize],
                operand: self.boxed(),
            },
            Form::Case { scrutinee, arms, otherwise } => Expr::Case {
                scrutinee: self.flagged_box(scrutinee),
                arms: self.many(arms, |walk| (walk.expr(), walk.expr())),
                otherwise: self.flagged_box(otherwise),
            },
            Form::IsNull { negated } => Expr::IsNull { operand: self.boxed(), negated },
            Form::In => Expr::InList { operand: self.boxed(), list: self.boxed() },
            Form::Pat(parts) => Expr::PatternPredicate(self.pattern(parts)),
            Form::Listp { kind, var, pred } => Expr::ListPredicate {
                kind: LIST_KINDS[kind as usize],
                var: VarId(var),
                iterable: self.boxed(),
                predicate: self.flagged_box(pred),
            },
            Form::Unres(name) => Expr::Unresolved(text(name)),
            Form::Undes(kind) => undesugared(kind),
            form => unreachable!("{form:?} is no expression"),
        }
    }
}

/// The sheet gives these forms no children, so they get empty ones; the check
/// never looks inside.
pub fn undesugared(kind: u32) -> Expr {
    let null = || Box::new(Expr::Null);
    match kind {
        0 => Expr::ListComprehension {
            filter_var: VarId(0),
            iterable: null(),
            filter: None,
            map_expr: null(),
        },
        1 => Expr::PatternComprehension {
            pattern: Pattern { parts: Vec::new() },
            filter: None,
            map_expr: null(),
            span: no_span(),
        },
        2 => Expr::MapProjection { base: null(), items: Vec::new() },
        _ => Expr::ExistsSubqueryDeferred { span: no_span() },
    }
}

/// What a spelled text says.
fn text(spelled: &[u8]) -> SmolStr {
    let spelled = std::str::from_utf8(spelled).expect("the Rust is asked about UTF-8 only");
    if !spelled.contains('\\') {
        return SmolStr::new(spelled);
    }
    let mut said = String::new();
    let mut letters = spelled.chars();
    while let Some(letter) = letters.next() {
        said.push(match letter {
            '\\' => match letters.next() {
                Some('t') => '\t',
                Some('n') => '\n',
                _ => '\\',
            },
            other => other,
        });
    }
    SmolStr::new(said)
}
