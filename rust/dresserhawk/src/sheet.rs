//! Statement sheets, built as trees: nobody has to write tabs or count children.
//!
//! ```
//! use dresserhawk::sheet::{Clause, Expr, Item, Node, Part, Statement, span};
//!
//! // MATCH (a:Book) RETURN a.title
//! let book = Node::new(span(6, 14)).bind(7).label("Book");
//! let title = Item::new(Expr::prop(Expr::var(7), "title"));
//! let sheet = Statement::new()
//!     .clause(Clause::matches(false, [Part::from(book)], span(0, 14)))
//!     .clause(Clause::returns([title], span(15, 29)))
//!     .to_sheet();
//! let plan = dresserhawk::Planner::new().plan(&sheet)?.to_vec();
//! assert!(plan.starts_with(b"plan\t2\t1\n"));
//! # Ok::<(), dresserhawk::Refusal>(())
//! ```
//!
//! Every sheet that is built here has the right records in the right order. It
//! can still be too long, too large or too deep, or hold what the check of a
//! tree refuses: refusals 2 and 4 to 8.

use crate::answer::{Span, Undesugared};
use crate::grammar::{Length, Record, Times, Value, record};

/// Start and end in the statement's text, in bytes. No sheet has a span that
/// ends before it starts; such a one is turned round.
pub fn span(start: u32, end: u32) -> Span {
    Span { start, end }
}

fn at(Span { start, end }: Span) -> Value {
    Value::Span(Span { start: start.min(end), end: start.max(end) })
}

/// A record, the fields that do not count children, and its children by group.
#[derive(Debug, Clone, PartialEq, Eq)]
struct Tree {
    record: &'static Record,
    own: Vec<Value>,
    groups: Vec<Vec<Tree>>,
}

impl Tree {
    fn new(keyword: &str, own: Vec<Value>, groups: Vec<Vec<Tree>>) -> Self {
        let record = record(keyword.as_bytes()).expect("a record of the table");
        let counted = record.groups.iter().filter(|group| matches!(group.times, Times::Field(_)));
        debug_assert_eq!(own.len() + counted.count(), record.fields.len(), "{keyword}");
        debug_assert_eq!(groups.len(), record.groups.len(), "{keyword}");
        Tree { record, own, groups }
    }

    /// The number in the field that counts a group's children.
    fn count(&self, field: usize) -> Option<usize> {
        let place = self.record.groups.iter().position(|it| it.times == Times::Field(field))?;
        Some(self.groups[place].len() / self.record.groups[place].sorts.len())
    }

    fn write(&self, out: &mut Vec<u8>) {
        out.extend_from_slice(self.record.keyword.as_bytes());
        let mut own = self.own.iter();
        for field in 0..self.record.fields.len() {
            out.push(b'\t');
            match self.count(field) {
                Some(count) => out.extend_from_slice(count.to_string().as_bytes()),
                None => own.next().expect("a value for each field").spell(out),
            }
        }
        out.push(b'\n');
        for child in self.groups.iter().flatten() {
            child.write(out);
        }
    }
}

/// What a builder's types have in common.
trait Built {
    fn tree(self) -> Tree;
}

fn trees<T: Built>(built: impl IntoIterator<Item = T>) -> Vec<Tree> {
    built.into_iter().map(Built::tree).collect()
}

fn text(text: impl Into<Vec<u8>>) -> Value {
    Value::Text(text.into())
}

fn name(name: impl Into<Vec<u8>>) -> Tree {
    Tree::new("name", vec![text(name)], vec![])
}

macro_rules! built {
    ($($(#[$doc:meta])* $name:ident;)*) => {$(
        $(#[$doc])*
        #[derive(Debug, Clone, PartialEq, Eq)]
        pub struct $name(Tree);

        impl Built for $name {
            fn tree(self) -> Tree {
                self.0
            }
        }
    )*};
}

built! {
    /// A whole statement: clauses, and arms of a union.
    Statement;
    /// A further arm of a union.
    Arm;
    /// A clause.
    Clause;
    /// An item of `with` or `return`.
    Item;
    /// A key of `order by`.
    Key;
    /// A part of a pattern: nodes and relationships in turn.
    Part;
    /// A node of a pattern.
    Node;
    /// A relationship of a pattern.
    Rel;
    /// An expression.
    Expr;
}

impl Default for Statement {
    fn default() -> Self {
        Self::new()
    }
}

impl Statement {
    pub fn new() -> Self {
        Statement(Tree::new("stmt", vec![], vec![vec![], vec![]]))
    }

    pub fn clause(mut self, clause: Clause) -> Self {
        self.0.groups[0].push(clause.0);
        self
    }

    pub fn arm(mut self, arm: Arm) -> Self {
        self.0.groups[1].push(arm.0);
        self
    }

    /// The statement sheet.
    pub fn to_sheet(&self) -> Vec<u8> {
        let mut sheet = Vec::new();
        self.0.write(&mut sheet);
        sheet
    }
}

impl Arm {
    /// `union all`, or `union`.
    pub fn new(all: bool, clauses: impl IntoIterator<Item = Clause>) -> Self {
        Arm(Tree::new("arm", vec![Value::Flag(all)], vec![trees(clauses)]))
    }
}

/// What may follow the items of `with` and `return`. Only a `with` has a filter.
#[derive(Debug, Clone, Default, PartialEq, Eq)]
pub struct Tail {
    pub keys: Vec<Key>,
    pub skip: Option<Expr>,
    pub limit: Option<Expr>,
}

impl Tail {
    fn groups(self) -> [Vec<Tree>; 3] {
        [trees(self.keys), trees(self.skip), trees(self.limit)]
    }
}

impl Clause {
    /// `match`, or `optional match`.
    pub fn matches(optional: bool, parts: impl IntoIterator<Item = Part>, span: Span) -> Self {
        let own = vec![Value::Flag(optional), at(span)];
        Clause(Tree::new("match", own, vec![trees(parts)]))
    }

    pub fn filter(predicate: Expr, span: Span) -> Self {
        Clause(Tree::new("where", vec![at(span)], vec![vec![predicate.0]]))
    }

    pub fn with(items: impl IntoIterator<Item = Item>, span: Span) -> Self {
        Self::with_tail(items, None, Tail::default(), span)
    }

    pub fn with_tail(
        items: impl IntoIterator<Item = Item>,
        filter: Option<Expr>,
        tail: Tail,
        span: Span,
    ) -> Self {
        let [keys, skip, limit] = tail.groups();
        let groups = vec![trees(items), trees(filter), keys, skip, limit];
        Clause(Tree::new("with", vec![at(span)], groups))
    }

    pub fn returns(items: impl IntoIterator<Item = Item>, span: Span) -> Self {
        Self::returns_tail(items, false, Tail::default(), span)
    }

    pub fn returns_tail(
        items: impl IntoIterator<Item = Item>,
        distinct: bool,
        tail: Tail,
        span: Span,
    ) -> Self {
        let own = vec![Value::Flag(distinct), at(span)];
        let [keys, skip, limit] = tail.groups();
        Clause(Tree::new("return", own, vec![trees(items), keys, skip, limit]))
    }

    pub fn unwind(list: Expr, id: u32, span: Span) -> Self {
        let own = vec![Value::Number(id), at(span)];
        Clause(Tree::new("unwind", own, vec![vec![list.0]]))
    }

    /// A procedure's call; `yields` are names and ids.
    pub fn call<N: Into<Vec<u8>>>(
        procedure: impl Into<Vec<u8>>,
        args: impl IntoIterator<Item = Expr>,
        yields: impl IntoIterator<Item = (N, u32)>,
        optional: bool,
        span: Span,
    ) -> Self {
        let own = vec![text(procedure), Value::Flag(optional), at(span)];
        let yields = yields
            .into_iter()
            .map(|(name, id)| Tree::new("yield", vec![text(name), Value::Number(id)], vec![]));
        Clause(Tree::new("call", own, vec![trees(args), yields.collect()]))
    }

    /// Any clause that writes. A sheet with one is refused.
    pub fn write(span: Span) -> Self {
        Clause(Tree::new("write", vec![at(span)], vec![]))
    }
}

impl Item {
    pub fn new(expr: Expr) -> Self {
        Item(Tree::new("item", vec![Value::Alias(None)], vec![vec![expr.0]]))
    }

    pub fn alias(mut self, alias: impl Into<Vec<u8>>) -> Self {
        self.0.own[0] = Value::Alias(Some(alias.into()));
        self
    }
}

impl Key {
    pub fn new(expr: Expr, descending: bool) -> Self {
        Key(Tree::new("key", vec![Value::Flag(descending)], vec![vec![expr.0]]))
    }
}

/// Whether the shortest path is asked for, or all shortest ones.
#[derive(Debug, Clone, Copy, PartialEq, Eq)]
pub enum Shortest {
    No,
    Shortest,
    AllShortest,
}

impl Part {
    /// A part with no elements yet. It needs a node to begin with.
    pub fn new() -> Self {
        Part(Tree::new("part", vec![Value::MaybeId(None), Value::Number(0)], vec![vec![]]))
    }

    pub fn bind(mut self, id: u32) -> Self {
        self.0.own[0] = Value::MaybeId(Some(id));
        self
    }

    pub fn shortest(mut self, shortest: Shortest) -> Self {
        self.0.own[1] = Value::Number(shortest as u32);
        self
    }

    pub fn node(mut self, node: Node) -> Self {
        self.0.groups[0].push(node.0);
        self
    }

    pub fn rel(mut self, rel: Rel) -> Self {
        self.0.groups[0].push(rel.0);
        self
    }
}

impl Default for Part {
    fn default() -> Self {
        Self::new()
    }
}

impl From<Node> for Part {
    fn from(node: Node) -> Self {
        Part::new().node(node)
    }
}

impl Node {
    pub fn new(span: Span) -> Self {
        let own = vec![Value::MaybeId(None), at(span)];
        Node(Tree::new("node", own, vec![vec![], vec![]]))
    }

    pub fn bind(mut self, id: u32) -> Self {
        self.0.own[0] = Value::MaybeId(Some(id));
        self
    }

    pub fn label(mut self, label: impl Into<Vec<u8>>) -> Self {
        self.0.groups[0].push(name(label));
        self
    }

    pub fn props(mut self, props: Expr) -> Self {
        self.0.groups[1] = vec![props.0];
        self
    }
}

/// Which way a relationship goes.
#[derive(Debug, Clone, Copy, PartialEq, Eq)]
pub enum Direction {
    Outgoing,
    Incoming,
    Undirected,
}

impl Rel {
    /// One step.
    pub fn new(direction: Direction, span: Span) -> Self {
        let length = Value::Length(Length::One);
        let own = vec![Value::MaybeId(None), Value::Number(direction as u32), length, at(span)];
        Rel(Tree::new("rel", own, vec![vec![], vec![]]))
    }

    pub fn bind(mut self, id: u32) -> Self {
        self.0.own[0] = Value::MaybeId(Some(id));
        self
    }

    pub fn of_type(mut self, name_of_type: impl Into<Vec<u8>>) -> Self {
        self.0.groups[0].push(name(name_of_type));
        self
    }

    /// A number of steps between two bounds.
    pub fn steps(mut self, least: Option<u64>, greatest: Option<u64>) -> Self {
        self.0.own[2] = Value::Length(Length::Var { least, greatest });
        self
    }

    pub fn props(mut self, props: Expr) -> Self {
        self.0.groups[1] = vec![props.0];
        self
    }
}

/// The operators of two operands, by number.
#[derive(Debug, Clone, Copy, PartialEq, Eq)]
pub enum Binary {
    Add,
    Sub,
    Mul,
    Div,
    Mod,
    Pow,
    Eq,
    Neq,
    Lt,
    Le,
    Gt,
    Ge,
    And,
    Or,
    Xor,
    StartsWith,
    EndsWith,
    Contains,
    RegexMatch,
    Concat,
}

/// The operators of one operand, by number.
#[derive(Debug, Clone, Copy, PartialEq, Eq)]
pub enum Unary {
    Neg,
    Not,
}

/// The kinds of list predicate, by number.
#[derive(Debug, Clone, Copy, PartialEq, Eq)]
pub enum ListKind {
    Any,
    All,
    None,
    Single,
}

impl Expr {
    fn of(keyword: &str, own: Vec<Value>, groups: Vec<Vec<Tree>>) -> Self {
        Expr(Tree::new(keyword, own, groups))
    }

    pub fn null() -> Self {
        Self::of("null", vec![], vec![])
    }

    pub fn bool(value: bool) -> Self {
        Self::of("bool", vec![Value::Flag(value)], vec![])
    }

    pub fn int(value: i64) -> Self {
        Self::of("int", vec![Value::Int(value)], vec![])
    }

    pub fn float(value: f64) -> Self {
        Self::of("float", vec![Value::Float(value.to_bits())], vec![])
    }

    pub fn string(value: impl Into<Vec<u8>>) -> Self {
        Self::of("str", vec![text(value)], vec![])
    }

    pub fn param(name: impl Into<Vec<u8>>) -> Self {
        Self::of("param", vec![text(name)], vec![])
    }

    pub fn var(id: u32) -> Self {
        Self::of("var", vec![Value::Number(id)], vec![])
    }

    pub fn prop(target: Expr, name: impl Into<Vec<u8>>) -> Self {
        Self::of("prop", vec![text(name)], vec![vec![target.0]])
    }

    pub fn index(target: Expr, index: Expr) -> Self {
        Self::of("index", vec![], vec![vec![target.0, index.0]])
    }

    /// Whether the operand is in the list.
    pub fn is_in(operand: Expr, list: Expr) -> Self {
        Self::of("in", vec![], vec![vec![operand.0, list.0]])
    }

    pub fn slice(target: Expr, start: Option<Expr>, end: Option<Expr>) -> Self {
        Self::of("slice", vec![], vec![vec![target.0], trees(start), trees(end)])
    }

    pub fn list(items: impl IntoIterator<Item = Expr>) -> Self {
        Self::of("list", vec![], vec![trees(items)])
    }

    pub fn map<N: Into<Vec<u8>>>(entries: impl IntoIterator<Item = (N, Expr)>) -> Self {
        let entries = entries.into_iter().flat_map(|(key, value)| [name(key), value.0]);
        Self::of("map", vec![], vec![entries.collect()])
    }

    /// A function's call.
    pub fn call(
        function: impl Into<Vec<u8>>,
        args: impl IntoIterator<Item = Expr>,
        distinct: bool,
    ) -> Self {
        Self::of("fn", vec![text(function), Value::Flag(distinct)], vec![trees(args)])
    }

    pub fn binary(operator: Binary, left: Expr, right: Expr) -> Self {
        Self::of("bin", vec![Value::Number(operator as u32)], vec![vec![left.0, right.0]])
    }

    pub fn unary(operator: Unary, operand: Expr) -> Self {
        Self::of("un", vec![Value::Number(operator as u32)], vec![vec![operand.0]])
    }

    pub fn case(
        scrutinee: Option<Expr>,
        arms: impl IntoIterator<Item = (Expr, Expr)>,
        otherwise: Option<Expr>,
    ) -> Self {
        let arms = arms.into_iter().flat_map(|(when, then)| [when.0, then.0]).collect();
        Self::of("case", vec![], vec![trees(scrutinee), arms, trees(otherwise)])
    }

    pub fn is_null(operand: Expr, negated: bool) -> Self {
        Self::of("isnull", vec![Value::Flag(negated)], vec![vec![operand.0]])
    }

    /// Whether the pattern is there.
    pub fn pattern(parts: impl IntoIterator<Item = Part>) -> Self {
        Self::of("pat", vec![], vec![trees(parts)])
    }

    pub fn list_predicate(kind: ListKind, id: u32, list: Expr, predicate: Option<Expr>) -> Self {
        let own = vec![Value::Number(kind as u32), Value::Number(id)];
        Self::of("listp", own, vec![vec![list.0], trees(predicate)])
    }

    /// A name that was not resolved. A sheet with one is refused.
    pub fn unresolved(name: impl Into<Vec<u8>>) -> Self {
        Self::of("unres", vec![text(name)], vec![])
    }

    /// A form that should be gone. A sheet with one is refused.
    pub fn undesugared(kind: Undesugared) -> Self {
        Self::of("undes", vec![Value::Number(kind as u32)], vec![])
    }
}
