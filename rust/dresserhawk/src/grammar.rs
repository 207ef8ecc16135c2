//! The records of a statement sheet, in one table: the builder of sheets
//! ([`crate::sheet`]) writes by it, and what is said about a refused sheet
//! ([`crate::explain`]) is read off it.
//!
//! It says what docs/FORMAT.md says. The proved calls do not use it; the tests
//! hold it against them.

use crate::answer::Span;

/// Bytes that a sheet may have.
pub const MOST_BYTES: usize = 32_768;
/// Records that a sheet may have.
pub const MOST_LINES: usize = 2_048;
/// The depth that a record may have.
pub const MOST_DEEP: usize = 64;

/// What may stand at a place of the tree.
#[derive(Debug, Clone, Copy, PartialEq, Eq)]
pub enum Sort {
    Stmt,
    Arm,
    Clause,
    Item,
    Key,
    Yield,
    Part,
    Element,
    Name,
    Expr,
}

/// What a field holds.
#[derive(Debug, Clone, Copy, PartialEq, Eq)]
pub enum Form {
    /// A number of children, 32 bits.
    Count,
    /// A variable's id, 32 bits.
    Id,
    IdOrNone,
    Flag,
    /// A number from 0 to this one.
    UpTo(u32),
    Int,
    Float,
    Text,
    Alias,
    /// Two columns.
    Span,
    /// Three columns.
    Length,
}

/// How many steps a relationship has.
#[derive(Debug, Clone, Copy, PartialEq, Eq)]
pub enum Length {
    One,
    Var { least: Option<u64>, greatest: Option<u64> },
}

/// What a field says. A text is what is meant, not its spelling.
#[derive(Debug, Clone, PartialEq, Eq)]
pub enum Value {
    Number(u32),
    MaybeId(Option<u32>),
    Flag(bool),
    Int(i64),
    /// The bits of a double.
    Float(u64),
    Text(Vec<u8>),
    Alias(Option<Vec<u8>>),
    Span(Span),
    Length(Length),
}

/// A field of a record.
#[derive(Debug, Clone, Copy, PartialEq, Eq)]
pub struct Field {
    pub name: &'static str,
    pub form: Form,
}

/// How often a group's children come.
#[derive(Debug, Clone, Copy, PartialEq, Eq)]
pub enum Times {
    /// So often as this field says.
    Field(usize),
    Always(u32),
}

/// Children of a record that follow one another: their sorts, so many times over.
#[derive(Debug, Clone, Copy, PartialEq, Eq)]
pub struct Group {
    pub name: &'static str,
    pub sorts: &'static [Sort],
    pub times: Times,
}

/// A kind of record: its first word, what it is, its fields and its children.
#[derive(Debug, PartialEq, Eq)]
pub struct Record {
    pub keyword: &'static str,
    pub sort: Sort,
    pub fields: &'static [Field],
    pub groups: &'static [Group],
}

macro_rules! fields {
    ($($name:literal $form:expr),*) => {
        &[$(Field { name: $name, form: $form }),*]
    };
}

macro_rules! groups {
    ($($name:literal [$($sort:ident)+] $times:expr),*) => {
        &[$(Group { name: $name, sorts: &[$(Sort::$sort),+], times: $times }),*]
    };
}

macro_rules! records {
    ($($keyword:literal $sort:ident ($($fields:tt)*) [$($groups:tt)*];)*) => {
        &[$(Record {
            keyword: $keyword,
            sort: Sort::$sort,
            fields: fields!($($fields)*),
            groups: groups!($($groups)*),
        }),*]
    };
}

/// As many times as the field in this place says.
const fn by(field: usize) -> Times {
    Times::Field(field)
}

const ONE: Times = Times::Always(1);
const TWO: Times = Times::Always(2);

use Form::{Alias, Count, Flag, Float, Id, IdOrNone, Int, Text, UpTo};

/// Every record of a statement sheet.
#[rustfmt::skip]
pub const RECORDS: &[Record] = records! {
    "stmt" Stmt ("clauses" Count, "arms" Count) ["clause" [Clause] by(0), "arm" [Arm] by(1)];
    "arm" Arm ("all" Flag, "clauses" Count) ["clause" [Clause] by(1)];
    "match" Clause ("optional" Flag, "parts" Count, "span" Form::Span) ["part" [Part] by(1)];
    "where" Clause ("span" Form::Span) ["predicate" [Expr] ONE];
    "with" Clause ("items" Count, "filter" Flag, "keys" Count, "skip" Flag, "limit" Flag, "span" Form::Span)
        ["item" [Item] by(0), "filter" [Expr] by(1), "key" [Key] by(2), "skip" [Expr] by(3), "limit" [Expr] by(4)];
    "return" Clause ("items" Count, "distinct" Flag, "keys" Count, "skip" Flag, "limit" Flag, "span" Form::Span)
        ["item" [Item] by(0), "key" [Key] by(2), "skip" [Expr] by(3), "limit" [Expr] by(4)];
    "unwind" Clause ("id" Id, "span" Form::Span) ["list" [Expr] ONE];
    "call" Clause ("name" Text, "args" Count, "yields" Count, "optional" Flag, "span" Form::Span)
        ["argument" [Expr] by(1), "yield" [Yield] by(2)];
    "write" Clause ("span" Form::Span) [];
    "yield" Yield ("name" Text, "id" Id) [];
    "item" Item ("alias" Alias) ["expression" [Expr] ONE];
    "key" Key ("descending" Flag) ["expression" [Expr] ONE];
    "part" Part ("id" IdOrNone, "shortest" UpTo(2), "elements" Count) ["element" [Element] by(2)];
    "node" Element ("id" IdOrNone, "labels" Count, "props" Flag, "span" Form::Span)
        ["label" [Name] by(1), "properties" [Expr] by(2)];
    "rel" Element ("id" IdOrNone, "types" Count, "direction" UpTo(2), "length" Form::Length, "props" Flag, "span" Form::Span)
        ["type" [Name] by(1), "properties" [Expr] by(4)];
    "name" Name ("text" Text) [];
    "null" Expr () [];
    "bool" Expr ("value" Flag) [];
    "int" Expr ("value" Int) [];
    "float" Expr ("bits" Float) [];
    "str" Expr ("text" Text) [];
    "param" Expr ("name" Text) [];
    "var" Expr ("id" Id) [];
    "prop" Expr ("name" Text) ["target" [Expr] ONE];
    "index" Expr () ["operand" [Expr] TWO];
    "in" Expr () ["operand" [Expr] TWO];
    "slice" Expr ("start" Flag, "end" Flag) ["target" [Expr] ONE, "start" [Expr] by(0), "end" [Expr] by(1)];
    "list" Expr ("count" Count) ["expression" [Expr] by(0)];
    "map" Expr ("count" Count) ["entry" [Name Expr] by(0)];
    "fn" Expr ("name" Text, "args" Count, "distinct" Flag) ["argument" [Expr] by(1)];
    "bin" Expr ("operator" UpTo(19)) ["operand" [Expr] TWO];
    "un" Expr ("operator" UpTo(1)) ["operand" [Expr] ONE];
    "case" Expr ("scrutinee" Flag, "arms" Count, "else" Flag)
        ["scrutinee" [Expr] by(0), "arm" [Expr Expr] by(1), "else" [Expr] by(2)];
    "isnull" Expr ("negated" Flag) ["operand" [Expr] ONE];
    "pat" Expr ("parts" Count) ["part" [Part] by(0)];
    "listp" Expr ("kind" UpTo(3), "id" Id, "predicate" Flag) ["list" [Expr] ONE, "predicate" [Expr] by(2)];
    "unres" Expr ("name" Text) [];
    "undes" Expr ("kind" UpTo(3)) [];
};

/// The record with this first word.
pub fn record(keyword: &[u8]) -> Option<&'static Record> {
    RECORDS.iter().find(|record| record.keyword.as_bytes() == keyword)
}

impl Sort {
    /// The records that may stand there.
    pub fn records(self) -> impl Iterator<Item = &'static Record> {
        RECORDS.iter().filter(move |record| record.sort == self)
    }

    /// What such a record is called.
    pub fn name(self) -> &'static str {
        match self {
            Sort::Stmt => "statement",
            Sort::Arm => "arm",
            Sort::Clause => "clause",
            Sort::Item => "item",
            Sort::Key => "key",
            Sort::Yield => "yield",
            Sort::Part => "part",
            Sort::Element => "element",
            Sort::Name => "name",
            Sort::Expr => "expression",
        }
    }
}

impl Record {
    /// How many columns a line of it has, with the first word.
    pub fn columns(&self) -> usize {
        1 + self.fields.iter().map(|field| field.form.columns()).sum::<usize>()
    }

    /// The fields that a line's columns, without the first word, say; or the
    /// place of the first that does not say what it should. There have to be as
    /// many columns as the record has.
    pub fn read(&self, columns: &[&[u8]]) -> Result<Vec<Value>, usize> {
        let mut at = 0;
        let mut values = Vec::new();
        for (place, field) in self.fields.iter().enumerate() {
            let end = at + field.form.columns();
            values.push(field.form.read(&columns[at..end]).ok_or(place)?);
            at = end;
        }
        Ok(values)
    }

    /// How often each group's children come, by the fields.
    pub fn times(&self, values: &[Value]) -> Vec<u32> {
        let times = |group: &Group| match group.times {
            Times::Always(times) => times,
            Times::Field(field) => match values[field] {
                Value::Number(times) => times,
                Value::Flag(there) => there.into(),
                _ => unreachable!("children are counted by a count or a flag"),
            },
        };
        self.groups.iter().map(times).collect()
    }
}

impl Form {
    /// How many columns of a line it takes.
    pub fn columns(self) -> usize {
        match self {
            Form::Span => 2,
            Form::Length => 3,
            _ => 1,
        }
    }

    /// What it is, for a message.
    pub fn name(self) -> String {
        let name = match self {
            Form::Count => "a count (decimal, below 4294967296, no leading zero)",
            Form::Id => "an id (decimal, below 4294967296, no leading zero)",
            Form::IdOrNone => "an id (decimal, no leading zero), or `-` for none",
            Form::Flag => "a flag, `0` or `1`",
            Form::UpTo(most) => return format!("a number from 0 to {most}"),
            Form::Int => "an integer (decimal, 64 bits, signed; no leading zero, no `-0`)",
            Form::Float => "16 lower-case hexadecimal digits, the bits of a double",
            Form::Text => "a text (a backslash only in `\\t`, `\\n` and `\\\\`)",
            Form::Alias => "`-` for none, or `=` and a text",
            Form::Span => "a span: start and end, decimal, the start at most the end",
            Form::Length => "`one`, `-`, `-`; or `var` and two bounds, each a number or `-`",
        };
        name.to_string()
    }

    /// What columns say: the value that they could mean at best, if it spells
    /// them again. So there is no leading zero, no `-0` and no other escape.
    pub fn read(self, columns: &[&[u8]]) -> Option<Value> {
        let value = self.meant(columns)?;
        let mut spelled = Vec::new();
        value.spell(&mut spelled);
        (spelled == columns.join(&b'\t')).then_some(value)
    }

    fn meant(self, columns: &[&[u8]]) -> Option<Value> {
        let first = columns[0];
        let maybe = |column: &[u8]| (column != b"-").then_some(column.to_vec());
        Some(match self {
            Form::Count | Form::Id => Value::Number(number(first)?),
            Form::UpTo(most) => Value::Number(number(first).filter(|&number| number <= most)?),
            Form::IdOrNone => Value::MaybeId(match maybe(first) {
                Some(id) => Some(number(&id)?),
                None => None,
            }),
            Form::Flag => Value::Flag(number::<u32>(first)? == 1),
            Form::Int => Value::Int(number(first)?),
            Form::Float => {
                Value::Float(u64::from_str_radix(std::str::from_utf8(first).ok()?, 16).ok()?)
            }
            Form::Text => Value::Text(meant(first)),
            Form::Alias => {
                Value::Alias(maybe(first).map(|alias| meant(alias.get(1..).unwrap_or(&[]))))
            }
            Form::Span => {
                let span = Span { start: number(first)?, end: number(columns[1])? };
                Value::Span((span.start <= span.end).then_some(span)?)
            }
            Form::Length if first == b"one" => Value::Length(Length::One),
            Form::Length => Value::Length(Length::Var {
                least: number(columns[1]),
                greatest: number(columns[2]),
            }),
        })
    }
}

fn number<T: std::str::FromStr>(column: &[u8]) -> Option<T> {
    std::str::from_utf8(column).ok()?.parse().ok()
}

/// What a spelled text means; a backslash that begins no escape means itself.
fn meant(spelled: &[u8]) -> Vec<u8> {
    let mut text = Vec::new();
    let mut bytes = spelled.iter().copied().peekable();
    while let Some(byte) = bytes.next() {
        let escaped = |next: &u8| byte == b'\\' && matches!(next, b't' | b'n' | b'\\');
        text.push(match bytes.next_if(escaped) {
            Some(b't') => b'\t',
            Some(b'n') => b'\n',
            Some(_) => b'\\',
            None => byte,
        });
    }
    text
}

impl Value {
    /// Appends the spelling: one column, or more with tabs between them.
    pub fn spell(&self, out: &mut Vec<u8>) {
        let maybe = |number: Option<u64>| number.map_or("-".to_string(), |it| it.to_string());
        let spelled = match self {
            Value::Number(number) => number.to_string(),
            Value::MaybeId(id) => maybe(id.map(u64::from)),
            Value::Flag(flag) => u8::from(*flag).to_string(),
            Value::Int(int) => int.to_string(),
            Value::Float(bits) => format!("{bits:016x}"),
            Value::Text(text) => return spell_text(text, out),
            Value::Alias(None) => "-".to_string(),
            Value::Alias(Some(text)) => {
                out.push(b'=');
                return spell_text(text, out);
            }
            Value::Span(span) => format!("{}\t{}", span.start, span.end),
            Value::Length(Length::One) => "one\t-\t-".to_string(),
            Value::Length(Length::Var { least, greatest }) => {
                format!("var\t{}\t{}", maybe(*least), maybe(*greatest))
            }
        };
        out.extend_from_slice(spelled.as_bytes());
    }
}

fn spell_text(text: &[u8], out: &mut Vec<u8>) {
    for &byte in text {
        match byte {
            b'\t' => out.extend_from_slice(b"\\t"),
            b'\n' => out.extend_from_slice(b"\\n"),
            b'\\' => out.extend_from_slice(b"\\\\"),
            other => out.push(other),
        }
    }
}
