//! The statement sheet: from bytes to records in sheet order, or refusal 3 or 4.

/// A record's span in the source text.
pub type Span = (u32, u32);

/// A record by its fields. Texts keep the sheet's spelling: each has exactly
/// one, so it can be printed again as it stands.
#[derive(Debug, Clone, Copy, PartialEq)]
pub enum Form<'s> {
    Stmt { clauses: u32, arms: u32 },
    Arm { all: bool, clauses: u32 },
    Match { optional: bool, parts: u32, span: Span },
    Where { span: Span },
    Write { span: Span },
    With { items: u32, filter: bool, keys: u32, skip: bool, limit: bool, span: Span },
    Return { items: u32, distinct: bool, keys: u32, skip: bool, limit: bool, span: Span },
    Unwind { var: u32, span: Span },
    Call { name: &'s [u8], args: u32, yields: u32, optional: bool, span: Span },
    Yield { name: &'s [u8], var: u32 },
    Item { alias: Option<&'s [u8]> },
    Key { descending: bool },
    Part { var: Option<u32>, shortest: u32, elements: u32 },
    Node { var: Option<u32>, labels: u32, props: bool, span: Span },
    Rel { var: Option<u32>, types: u32, dir: u32, len: Length, props: bool, span: Span },
    Name(&'s [u8]),
    Null,
    Bool(bool),
    Int(i64),
    Float(u64),
    Str(&'s [u8]),
    Var(u32),
    Param(&'s [u8]),
    Prop(&'s [u8]),
    Index,
    Slice { start: bool, end: bool },
    List(u32),
    Map(u32),
    Fn { name: &'s [u8], args: u32, distinct: bool },
    Bin(u32),
    Un(u32),
    Case { scrutinee: bool, arms: u32, otherwise: bool },
    IsNull { negated: bool },
    In,
    Pat(u32),
    Listp { kind: u32, var: u32, pred: bool },
    Unres(&'s [u8]),
    Undes(u32),
}

/// How many steps a relationship has.
#[derive(Debug, Clone, Copy, PartialEq)]
pub enum Length {
    One,
    Var(Option<u64>, Option<u64>),
}

/// A record. It stands at its line less one; its children stand behind it, up
/// to `end`.
#[derive(Debug, Clone, Copy)]
pub struct Record<'s> {
    pub form: Form<'s>,
    pub end: usize,
}

/// Refusal 3 or 4, and which of the tests at a line gave it.
#[derive(Debug, Clone, Copy, PartialEq)]
pub struct Fault {
    pub number: usize,
    pub line: usize,
    pub why: Why,
}

#[derive(Debug, Clone, Copy, PartialEq)]
pub enum Why {
    Missing,
    NothingDue,
    NoLineFeed,
    Line2049,
    Depth65,
    Form,
}

pub const MOST_LINES: usize = 2048;
pub const MOST_DEEP: usize = 64;

/// What may stand at a line: the record that the lines before it call for.
#[derive(Clone, Copy)]
enum Due {
    Stmt,
    Clause,
    Arm,
    Item,
    Key,
    Yield,
    Part,
    Element,
    Name,
    Expr,
}

/// Reads a whole sheet: one `stmt` with its descendants, and nothing behind it.
pub fn read(sheet: &[u8]) -> Result<Vec<Record<'_>>, Fault> {
    let mut reader = Reader { rest: sheet, records: Vec::new() };
    reader.record(Due::Stmt, 1)?;
    if reader.rest.is_empty() { Ok(reader.records) } else { Err(reader.fault(Why::NothingDue)) }
}

/// The bytes not read yet and the records read, one for each line.
struct Reader<'s> {
    rest: &'s [u8],
    records: Vec<Record<'s>>,
}

impl<'s> Reader<'s> {
    /// Reads a due record and its descendants. A record deeper than 64 is refused, so the calls
    /// nest no further; each turn of a loop takes a line, so a large count costs nothing.
    fn record(&mut self, due: Due, depth: usize) -> Result<(), Fault> {
        let line = self.line(depth)?;
        let fields: Vec<&[u8]> = line.split(|&byte| byte == b'\t').collect();
        let form = form(due, &fields).ok_or(self.fault(Why::Form))?;
        let at = self.records.len();
        self.records.push(Record { form, end: at + 1 });
        for (run, times) in children(form) {
            for _ in 0..times {
                for &child in run {
                    self.record(child, depth + 1)?;
                }
            }
        }
        self.records[at].end = self.records.len();
        Ok(())
    }

    /// Takes the next line, for a due record of this depth. Its form comes after all these tests.
    fn line(&mut self, depth: usize) -> Result<&'s [u8], Fault> {
        if self.rest.is_empty() {
            return Err(self.fault(Why::Missing));
        }
        let feed = self.rest.iter().position(|&byte| byte == b'\n');
        let feed = feed.ok_or(self.fault(Why::NoLineFeed))?;
        if self.records.len() == MOST_LINES {
            return Err(self.fault(Why::Line2049));
        }
        if depth > MOST_DEEP {
            return Err(self.fault(Why::Depth65));
        }
        let line = &self.rest[..feed];
        self.rest = &self.rest[feed + 1..];
        Ok(line)
    }

    /// A fault at the line behind the records read: the line at hand, or the missing one.
    fn fault(&self, why: Why) -> Fault {
        let number = if matches!(why, Why::Line2049 | Why::Depth65) { 4 } else { 3 };
        Fault { number, line: self.records.len() + 1, why }
    }
}

/// The children due after a record, in order: runs of dues, each so many times over.
fn children(form: Form) -> Vec<(&'static [Due], u32)> {
    use Due::*;
    match form {
        Form::Stmt { clauses, arms } => vec![(&[Clause], clauses), (&[Arm], arms)],
        Form::Arm { clauses, .. } => vec![(&[Clause], clauses)],
        Form::Match { parts, .. } | Form::Pat(parts) => vec![(&[Part], parts)],
        Form::With { items, filter, keys, skip, limit, .. } => {
            let tail = u32::from(skip) + u32::from(limit);
            vec![(&[Item], items), (&[Expr], filter.into()), (&[Key], keys), (&[Expr], tail)]
        }
        Form::Return { items, keys, skip, limit, .. } => {
            let tail = u32::from(skip) + u32::from(limit);
            vec![(&[Item], items), (&[Key], keys), (&[Expr], tail)]
        }
        Form::Call { args, yields, .. } => vec![(&[Expr], args), (&[Yield], yields)],
        Form::Part { elements, .. } => vec![(&[Element], elements)],
        Form::Node { labels: names, props, .. } | Form::Rel { types: names, props, .. } => {
            vec![(&[Name], names), (&[Expr], props.into())]
        }
        Form::Where { .. } | Form::Unwind { .. } | Form::Item { .. } | Form::Key { .. } => {
            vec![(&[Expr], 1)]
        }
        Form::Prop(_) | Form::Un(_) | Form::IsNull { .. } => vec![(&[Expr], 1)],
        Form::Index | Form::Bin(_) | Form::In => vec![(&[Expr], 2)],
        Form::Slice { start, end } => vec![(&[Expr], 1 + u32::from(start) + u32::from(end))],
        Form::List(count) | Form::Fn { args: count, .. } => vec![(&[Expr], count)],
        Form::Map(count) => vec![(&[Name, Expr], count)],
        Form::Case { scrutinee, arms, otherwise } => {
            vec![(&[Expr], scrutinee.into()), (&[Expr, Expr], arms), (&[Expr], otherwise.into())]
        }
        Form::Listp { pred, .. } => vec![(&[Expr], 1 + u32::from(pred))],
        _ => vec![],
    }
}

/// The record that a line's fields make, if it is one that is due.
fn form<'s>(due: Due, fields: &[&'s [u8]]) -> Option<Form<'s>> {
    Some(match (due, fields) {
        (Due::Clause, _) => clause(fields)?,
        (Due::Element, _) => element(fields)?,
        (Due::Expr, _) => expression(fields)?,
        (Due::Stmt, &[b"stmt", clauses, arms]) => {
            Form::Stmt { clauses: number(clauses)?, arms: number(arms)? }
        }
        (Due::Arm, &[b"arm", all, clauses]) => {
            Form::Arm { all: flag(all)?, clauses: number(clauses)? }
        }
        (Due::Item, &[b"item", b"-"]) => Form::Item { alias: None },
        (Due::Item, &[b"item", alias]) => {
            Form::Item { alias: Some(text(alias.strip_prefix(b"=")?)?) }
        }
        (Due::Key, &[b"key", descending]) => Form::Key { descending: flag(descending)? },
        (Due::Yield, &[b"yield", name, var]) => {
            Form::Yield { name: text(name)?, var: number(var)? }
        }
        (Due::Part, &[b"part", var, shortest, elements]) => Form::Part {
            var: or_absent(var, number)?,
            shortest: below(3, shortest)?,
            elements: number(elements)?,
        },
        (Due::Name, &[b"name", name]) => Form::Name(text(name)?),
        _ => return None,
    })
}

fn clause<'s>(fields: &[&'s [u8]]) -> Option<Form<'s>> {
    Some(match *fields {
        [b"match", optional, parts, s, e] => {
            Form::Match { optional: flag(optional)?, parts: number(parts)?, span: span(s, e)? }
        }
        [b"where", s, e] => Form::Where { span: span(s, e)? },
        [b"write", s, e] => Form::Write { span: span(s, e)? },
        [b"with", items, filter, keys, skip, limit, s, e] => Form::With {
            items: number(items)?,
            filter: flag(filter)?,
            keys: number(keys)?,
            skip: flag(skip)?,
            limit: flag(limit)?,
            span: span(s, e)?,
        },
        [b"return", items, distinct, keys, skip, limit, s, e] => Form::Return {
            items: number(items)?,
            distinct: flag(distinct)?,
            keys: number(keys)?,
            skip: flag(skip)?,
            limit: flag(limit)?,
            span: span(s, e)?,
        },
        [b"unwind", var, s, e] => Form::Unwind { var: number(var)?, span: span(s, e)? },
        [b"call", name, args, yields, optional, s, e] => Form::Call {
            name: text(name)?,
            args: number(args)?,
            yields: number(yields)?,
            optional: flag(optional)?,
            span: span(s, e)?,
        },
        _ => return None,
    })
}

fn element<'s>(fields: &[&'s [u8]]) -> Option<Form<'s>> {
    Some(match *fields {
        [b"node", var, labels, props, s, e] => Form::Node {
            var: or_absent(var, number)?,
            labels: number(labels)?,
            props: flag(props)?,
            span: span(s, e)?,
        },
        [b"rel", var, types, dir, len, min, max, props, s, e] => Form::Rel {
            var: or_absent(var, number)?,
            types: number(types)?,
            dir: below(3, dir)?,
            len: length(len, min, max)?,
            props: flag(props)?,
            span: span(s, e)?,
        },
        _ => return None,
    })
}

fn expression<'s>(fields: &[&'s [u8]]) -> Option<Form<'s>> {
    Some(match *fields {
        [b"null"] => Form::Null,
        [b"bool", value] => Form::Bool(flag(value)?),
        [b"int", value] => Form::Int(int(value)?),
        [b"float", bits] => Form::Float(float(bits)?),
        [b"str", value] => Form::Str(text(value)?),
        [b"var", id] => Form::Var(number(id)?),
        [b"param", name] => Form::Param(text(name)?),
        [b"prop", name] => Form::Prop(text(name)?),
        [b"index"] => Form::Index,
        [b"slice", start, end] => Form::Slice { start: flag(start)?, end: flag(end)? },
        [b"list", count] => Form::List(number(count)?),
        [b"map", count] => Form::Map(number(count)?),
        [b"fn", name, args, distinct] => {
            Form::Fn { name: text(name)?, args: number(args)?, distinct: flag(distinct)? }
        }
        [b"bin", op] => Form::Bin(below(20, op)?),
        [b"un", op] => Form::Un(below(2, op)?),
        [b"case", scrutinee, arms, otherwise] => Form::Case {
            scrutinee: flag(scrutinee)?,
            arms: number(arms)?,
            otherwise: flag(otherwise)?,
        },
        [b"isnull", negated] => Form::IsNull { negated: flag(negated)? },
        [b"in"] => Form::In,
        [b"pat", parts] => Form::Pat(number(parts)?),
        [b"listp", kind, var, pred] => {
            Form::Listp { kind: below(4, kind)?, var: number(var)?, pred: flag(pred)? }
        }
        [b"unres", name] => Form::Unres(text(name)?),
        [b"undes", kind] => Form::Undes(below(4, kind)?),
        _ => return None,
    })
}

/// A decimal number of 64 bits: digits only, at least one, and no spare zero before them.
fn decimal(field: &[u8]) -> Option<u64> {
    if field.is_empty() || (field.len() > 1 && field[0] == b'0') {
        return None;
    }
    field.iter().try_fold(0u64, |so_far, &byte| {
        let digit = byte.is_ascii_digit().then(|| u64::from(byte - b'0'))?;
        so_far.checked_mul(10)?.checked_add(digit)
    })
}

/// An id, a count or an end of a span: 32 bits.
fn number(field: &[u8]) -> Option<u32> {
    u32::try_from(decimal(field)?).ok()
}

/// A number that picks one of a few, counted from 0.
fn below(limit: u32, field: &[u8]) -> Option<u32> {
    number(field).filter(|&picked| picked < limit)
}

fn flag(field: &[u8]) -> Option<bool> {
    below(2, field).map(|set| set == 1)
}

/// A field that may be `-` instead.
fn or_absent<T>(field: &[u8], read: fn(&[u8]) -> Option<T>) -> Option<Option<T>> {
    if field == b"-" { Some(None) } else { read(field).map(Some) }
}

fn span(start: &[u8], end: &[u8]) -> Option<Span> {
    let span = (number(start)?, number(end)?);
    (span.0 <= span.1).then_some(span)
}

fn length(len: &[u8], min: &[u8], max: &[u8]) -> Option<Length> {
    match (len, min, max) {
        (b"one", b"-", b"-") => Some(Length::One),
        (b"var", _, _) => Some(Length::Var(or_absent(min, decimal)?, or_absent(max, decimal)?)),
        _ => None,
    }
}

/// A signed number of 64 bits. It is taken from 0 when negative, for the lowest has no positive.
fn int(field: &[u8]) -> Option<i64> {
    match field.strip_prefix(b"-") {
        Some(b"0") => None,
        Some(digits) => 0i64.checked_sub_unsigned(decimal(digits)?),
        None => i64::try_from(decimal(field)?).ok(),
    }
}

/// The bits of a float; any 64 will do.
fn float(field: &[u8]) -> Option<u64> {
    let lower_hex = |byte: &u8| matches!(byte, b'0'..=b'9' | b'a'..=b'f');
    if field.len() != 16 || !field.iter().all(lower_hex) {
        return None;
    }
    u64::from_str_radix(std::str::from_utf8(field).ok()?, 16).ok()
}

/// A text as it stands, if each backslash in it begins one of the three escapes.
fn text(field: &[u8]) -> Option<&[u8]> {
    let mut bytes = field.iter();
    while let Some(byte) = bytes.next() {
        if *byte == b'\\' && !matches!(bytes.next(), Some(b't' | b'n' | b'\\')) {
            return None;
        }
    }
    Some(field)
}

#[cfg(test)]
pub(crate) mod by_hand {
    use super::*;

    /// A sheet written on one line: a space stands for the tab, a bar for the line feed.
    pub(crate) fn sheet(lines: &str) -> Vec<u8> {
        (lines.replace(' ', "\t").replace('|', "\n") + "\n").into_bytes()
    }

    const RETURN: &str = "stmt 1 0|return 1 0 0 0 0 0 0|item -";

    fn fault(bytes: &[u8]) -> (usize, usize, Why) {
        let Fault { number, line, why } = read(bytes).unwrap_err();
        (number, line, why)
    }

    /// The sheet is read, and its last line has a form that passes.
    fn last(lines: &str, check: impl Fn(Form) -> bool) {
        let bytes = sheet(lines);
        let records = read(&bytes).unwrap_or_else(|fault| panic!("{lines}: {fault:?}"));
        assert!(check(records[records.len() - 1].form), "{lines}");
    }

    /// The last line of a sheet is refused for its form.
    fn bad(lines: &str) {
        let count = lines.split('|').count();
        assert_eq!(fault(&sheet(lines)), (3, count, Why::Form), "{lines}");
    }

    fn expr_is(line: &str, form: Form) {
        last(&format!("{RETURN}|{line}"), |read| read == form);
    }

    fn expr_bad(line: &str) {
        bad(&format!("{RETURN}|{line}"));
    }

    #[test]
    fn m1_in_order_with_ends() {
        let bytes = sheet(
            "stmt 2 0|match 0 1 0 14|part - 0 1|node 7 1 0 6 14|name Book|\
             return 1 0 0 0 0 15 29|item -|prop title|var 7",
        );
        let records = read(&bytes).unwrap();
        let ends: Vec<usize> = records.iter().map(|record| record.end).collect();
        assert_eq!(ends, [9, 5, 5, 5, 5, 9, 9, 9, 9]);
        let forms: Vec<Form> = records.iter().map(|record| record.form).collect();
        let wanted = [
            Form::Stmt { clauses: 2, arms: 0 },
            Form::Match { optional: false, parts: 1, span: (0, 14) },
            Form::Part { var: None, shortest: 0, elements: 1 },
            Form::Node { var: Some(7), labels: 1, props: false, span: (6, 14) },
            Form::Name(b"Book"),
            Form::Return {
                items: 1,
                distinct: false,
                keys: 0,
                skip: false,
                limit: false,
                span: (15, 29),
            },
            Form::Item { alias: None },
            Form::Prop(b"title"),
            Form::Var(7),
        ];
        assert_eq!(forms, wanted);
    }

    #[test]
    fn m2_m3_smallest_sheets() {
        assert_eq!(fault(b""), (3, 1, Why::Missing));
        assert_eq!(read(b"stmt\t0\t0\n").unwrap().len(), 1);
        assert_eq!(fault(b"stmt\t0\t0"), (3, 1, Why::NoLineFeed));
        assert_eq!(fault(b"\n"), (3, 1, Why::Form));
        assert_eq!(fault(b"null\n"), (3, 1, Why::Form));
        assert_eq!(fault(b"stmt 0 0\n"), (3, 1, Why::Form));
        assert_eq!(fault(b"stmt\t0\t0\r\n"), (3, 1, Why::Form));
        assert_eq!(fault(b"stmt\t0\t0\n\n"), (3, 2, Why::NothingDue));
        assert_eq!(fault(b"stmt\t0\t0\nx"), (3, 2, Why::NothingDue));
    }

    /// One record of each due, by a letter.
    const SAMPLES: [(char, &str); 11] = [
        ('S', "stmt 0 0"),
        ('C', "write 0 0"),
        ('A', "arm 0 0"),
        ('I', "item -"),
        ('K', "key 0"),
        ('Y', "yield a 0"),
        ('P', "part - 0 0"),
        ('L', "node - 0 0 0 0"),
        ('L', "rel - 0 0 one - - 0 0 0"),
        ('N', "name a"),
        ('E', "null"),
    ];

    /// At each line just the records of its letter are let in; one line less leaves the last
    /// missing, and one more has nothing due.
    fn dues(lines: &str, letters: &str) {
        let all: Vec<&str> = lines.split('|').collect();
        assert_eq!(read(&sheet(lines)).unwrap().len(), letters.len(), "{lines}");
        for (at, letter) in letters.chars().enumerate() {
            for (sample, record) in SAMPLES {
                let mut changed = all.clone();
                changed[at] = record;
                let form = Fault { number: 3, line: at + 1, why: Why::Form };
                let refused = read(&sheet(&changed.join("|"))).err() == Some(form);
                assert_eq!(refused, sample != letter, "{lines}: {at} {record}");
            }
        }
        if let Some((less, _)) = lines.rsplit_once('|') {
            assert_eq!(fault(&sheet(less)), (3, all.len(), Why::Missing), "{lines}");
        }
        let more = format!("{lines}|null");
        assert_eq!(fault(&sheet(&more)), (3, all.len() + 1, Why::NothingDue), "{lines}");
    }

    #[test]
    fn children_of_statement_and_clauses() {
        dues("stmt 0 0", "S");
        dues("stmt 2 2|where 0 0|null|write 0 0|arm 1 1|write 0 0|arm 0 0", "SCECACA");
        dues("stmt 0 1|arm 0 2|write 0 0|write 0 0", "SACC");
        dues("stmt 1 0|match 1 0 0 0", "SC");
        dues("stmt 1 0|match 0 2 0 0|part - 0 0|part - 0 0", "SCPP");
        dues("stmt 1 0|with 0 0 0 0 0 0 0", "SC");
        dues("stmt 1 0|with 1 1 1 1 1 0 0|item -|null|null|key 0|null|null|null", "SCIEEKEEE");
        dues("stmt 1 0|with 0 0 1 0 1 0 0|key 0|null|null", "SCKEE");
        dues("stmt 1 0|return 0 1 0 0 0 0 0", "SC");
        dues(
            "stmt 1 0|return 2 1 1 1 1 0 0|item -|null|item =a|null|key 1|null|null|null",
            "SCIEIEKEEE",
        );
        dues("stmt 1 0|return 0 0 0 1 0 0 0|null", "SCE");
        dues("stmt 1 0|unwind 3 0 0|null", "SCE");
        dues("stmt 1 0|call f 0 0 0 0 0", "SC");
        dues("stmt 1 0|call f 1 2 0 0 0|null|yield a 1|yield b 2", "SCEYY");
    }

    #[test]
    fn children_of_parts_and_elements() {
        dues(
            "stmt 1 0|match 0 1 0 0|part - 0 2|node - 2 1 0 0|name a|name b|null|\
             rel - 1 0 one - - 1 0 0|name c|null",
            "SCPLNNELNE",
        );
        // Whether a rel may be first is for the check, not for the reader.
        dues(
            "stmt 1 0|match 0 1 0 0|part - 0 2|rel - 0 0 one - - 0 0 0|rel - 0 0 one - - 0 0 0",
            "SCPLL",
        );
    }

    #[test]
    fn children_of_expressions() {
        let leaves = "null,bool 0,int 0,float 0000000000000000,str a,var 0,param a,list 0,map 0,\
                      fn f 0 0,case 0 0 0,pat 0,unres a,undes 0";
        for leaf in leaves.split(',') {
            dues(&format!("{RETURN}|{leaf}"), "SCIE");
        }
        let one =
            "prop a,slice 0 0,list 1,fn f 1 0,un 0,case 1 0 0,case 0 0 1,isnull 0,listp 0 0 0";
        for record in one.split(',') {
            dues(&format!("{RETURN}|{record}|null"), "SCIEE");
        }
        let two = "index,slice 1 0,slice 0 1,list 2,fn f 2 1,bin 0,case 0 1 0,case 1 0 1,in,\
                   listp 0 0 1";
        for record in two.split(',') {
            dues(&format!("{RETURN}|{record}|null|null"), "SCIEEE");
        }
        dues(&format!("{RETURN}|slice 1 1|null|null|null"), "SCIEEEE");
        dues(&format!("{RETURN}|case 1 2 1|null|null|null|null|null|null"), "SCIEEEEEEE");
        dues(&format!("{RETURN}|map 2|name a|null|name b|null"), "SCIENENE");
        dues(&format!("{RETURN}|pat 2|part - 0 0|part - 0 0"), "SCIEPP");
    }

    #[test]
    fn ends_lie_behind_the_last_descendant() {
        let bytes = sheet("stmt 0 2|arm 0 1|where 0 0|list 2|un 0|null|null|arm 1 0");
        let ends: Vec<usize> = read(&bytes).unwrap().iter().map(|record| record.end).collect();
        assert_eq!(ends, [8, 7, 7, 7, 6, 6, 7, 8]);
    }

    #[test]
    fn numbers_of_32_bits() {
        for (field, id) in [("0", 0), ("9", 9), ("10", 10), ("4294967295", u32::MAX)] {
            expr_is(&format!("var {field}"), Form::Var(id));
        }
        for field in ["", "-", "00", "01", "+1", "-1", "-0", "4294967296", "1a", "0x1", "٣", "1 "]
        {
            expr_bad(&format!("var {field}"));
        }
        expr_bad(&format!("var {}", "9".repeat(400)));
        expr_bad(&format!("var {}1", "0".repeat(400)));
        expr_bad("list 4294967296");
    }

    #[test]
    fn m8_ints() {
        for value in [0, 1, -1, 10, -10, i64::MAX, i64::MIN] {
            expr_is(&format!("int {value}"), Form::Int(value));
        }
        let bad = "9223372036854775808,-9223372036854775809,18446744073709551616,\
                   -18446744073709551617,-0,-00,00,-01,01,-,--1,+1,1-,1.0";
        bad.split(',').for_each(|field| expr_bad(&format!("int {field}")));
        expr_bad("int ");
        expr_bad("int");
    }

    #[test]
    fn floats() {
        expr_is("float 0000000000000000", Form::Float(0));
        expr_is("float 0123456789abcdef", Form::Float(0x0123_4567_89ab_cdef));
        expr_is("float ffffffffffffffff", Form::Float(u64::MAX));
        let bad = "000000000000000,00000000000000000,ABCDEFABCDEFABCD,000000000000000g,\
                   +000000000000000,-000000000000000,1.5";
        bad.split(',').for_each(|field| expr_bad(&format!("float {field}")));
    }

    #[test]
    fn texts() {
        for spelling in ["", "a", "-", "=", r"\t", r"\n", r"\\", r"\\t", r"a\\\n", "\r", "\0", "ä"]
        {
            expr_is(&format!("str {spelling}"), Form::Str(spelling.as_bytes()));
            expr_is(&format!("param {spelling}"), Form::Param(spelling.as_bytes()));
            expr_is(&format!("unres {spelling}"), Form::Unres(spelling.as_bytes()));
        }
        for spelling in [r"\", r"\r", r"\T", r"\0", r"\\\", r"a\", r"\x41", "a b"] {
            for word in ["str", "param", "unres", "prop"] {
                expr_bad(&format!("{word} {spelling}"));
            }
            expr_bad(&format!("fn {spelling} 0 0"));
            expr_bad(&format!("map 1|name {spelling}"));
            bad(&format!("stmt 1 0|call {spelling} 0 0 0 0 0"));
            bad(&format!("stmt 1 0|call a 0 1 0 0 0|yield {spelling} 0"));
            bad(&format!("stmt 1 0|return 1 0 0 0 0 0 0|item ={spelling}"));
        }
        expr_bad("str");
        let raw = [&sheet(RETURN)[..], b"str\t\xff\x80\xc3\n"].concat();
        assert_eq!(read(&raw).unwrap()[3].form, Form::Str(b"\xff\x80\xc3"));
    }

    #[test]
    fn flags_and_picks() {
        expr_is("bool 0", Form::Bool(false));
        expr_is("bool 1", Form::Bool(true));
        ["2", "", "-", "01", "true"].iter().for_each(|field| expr_bad(&format!("bool {field}")));
        expr_is("undes 3", Form::Undes(3));
        expr_bad("undes 4");
        last(&format!("{RETURN}|un 1|null"), |form| form == Form::Null);
        expr_bad("un 2");
        last(&format!("{RETURN}|bin 19|null|null"), |form| form == Form::Null);
        expr_bad("bin 20");
        last(&format!("{RETURN}|listp 3 4294967295 0|null"), |form| form == Form::Null);
        expr_bad("listp 4 0 0");
        expr_bad("listp 0 - 0");
        let part = "stmt 1 0|match 0 1 0 0|part";
        last(&format!("{part} 4294967295 2 0"), |form| {
            form == Form::Part { var: Some(u32::MAX), shortest: 2, elements: 0 }
        });
        bad(&format!("{part} - 3 0"));
        bad(&format!("{part}  0 0"));
    }

    /// Each flag of each record refuses 2, each count and id refuses `-` where none is due, and
    /// no record may have a field more or less.
    #[test]
    fn each_field_of_each_record() {
        let clauses = "match 2 0 0 0,match 0 - 0 0,with - 0 0 0 0 0 0,with 0 2 0 0 0 0 0,\
                       with 0 0 - 0 0 0 0,with 0 0 0 2 0 0 0,with 0 0 0 0 2 0 0,with 0 0 0 0 0 0,\
                       return - 0 0 0 0 0 0,return 0 2 0 0 0 0 0,return 0 0 - 0 0 0 0,\
                       return 0 0 0 2 0 0 0,return 0 0 0 0 2 0 0,return 0 0 0 0 0 0 0 0,\
                       unwind - 0 0,call a - 0 0 0 0,call a 0 - 0 0 0,call a 0 0 2 0 0,\
                       Match 0 0 0 0";
        clauses.split(',').for_each(|line| bad(&format!("stmt 1 0|{line}")));
        let expressions = "slice 2 0,slice 0 2,list -,map -,fn a - 0,fn a 0 2,case 2 0 0,\
                           case 0 - 0,case 0 0 2,isnull 2,pat -,listp 0 0 2,null 0,index 0,in 0";
        expressions.split(',').for_each(expr_bad);
        for line in ["node - - 0 0 0", "node - 0 2 0 0", "node  0 0 0 0", "node - 0 0 0"] {
            bad(&format!("stmt 1 0|match 0 1 0 0|part - 0 1|{line}"));
        }
        bad("stmt - 0");
        bad("stmt 0 -");
        bad("stmt 0 0 0");
        bad("stmt 0 1|arm 2 0");
        bad("stmt 0 1|arm 0 -");
        bad("stmt 1 0|call a 0 1 0 0 0|yield a -");
        bad("stmt 1 0|return 0 0 1 0 0 0 0|key 2");
    }

    #[test]
    fn aliases() {
        let item = "stmt 1 0|return 1 0 0 0 0 0 0|item";
        for (field, alias) in [("-", None), ("=", Some("")), ("=-", Some("-")), ("==", Some("="))] {
            let bytes = sheet(&format!("{item} {field}|null"));
            let alias = alias.map(str::as_bytes);
            assert_eq!(read(&bytes).unwrap()[2].form, Form::Item { alias });
        }
        ["", "a", "--", "-a"].iter().for_each(|field| bad(&format!("{item} {field}")));
        bad(item);
    }

    #[test]
    fn spans() {
        for (fields, span) in [("0 0", (0, 0)), ("3 4294967295", (3, u32::MAX)), ("7 7", (7, 7))] {
            last(&format!("stmt 1 0|write {fields}"), |form| form == Form::Write { span });
        }
        let wrong =
            ["1 0", "4294967295 4294967294", "0 4294967296", "0", "0 -", "- 0", "00 0", "0 01"];
        let before = "match 0 0,where,write,with 0 0 0 0 0,return 0 0 0 0 0,unwind 0,call a 0 0 0";
        for fields in wrong {
            before.split(',').for_each(|record| bad(&format!("stmt 1 0|{record} {fields}")));
            for element in ["node - 0 0", "rel - 0 0 one - - 0"] {
                bad(&format!("stmt 1 0|match 0 1 0 0|part - 0 1|{element} {fields}"));
            }
        }
    }

    #[test]
    fn rels() {
        let part = "stmt 1 0|match 0 1 0 0|part - 0 1|rel";
        let max = Some(u64::MAX);
        for (fields, wanted) in [
            ("one - -", Length::One),
            ("var - -", Length::Var(None, None)),
            ("var 0 18446744073709551615", Length::Var(Some(0), max)),
            ("var 18446744073709551615 0", Length::Var(max, Some(0))),
            ("var - 2", Length::Var(None, Some(2))),
            ("var 2 -", Length::Var(Some(2), None)),
        ] {
            last(&format!("{part} 4 0 2 {fields} 0 1 2"), |form| {
                form == Form::Rel {
                    var: Some(4),
                    types: 0,
                    dir: 2,
                    len: wanted,
                    props: false,
                    span: (1, 2),
                }
            });
        }
        let wrong = "one 1 -,one - 1,one 1 1,var 18446744073709551616 -,var - 18446744073709551616,\
                     var 01 -,var -1 -,var  -,two - -,- - -,one -,one - - -";
        wrong.split(',').for_each(|fields| bad(&format!("{part} - 0 0 {fields} 0 1 2")));
        for line in [
            "- 0 3 one - - 0 0 0",
            "- - 0 one - - 0 0 0",
            "- 0 0 one - - 2 0 0",
            "x 0 0 one - - 0 0 0",
        ] {
            bad(&format!("{part} {line}"));
        }
    }

    /// A return of a list of so many nulls: four lines and the nulls.
    fn nulls(due: usize, there: usize) -> String {
        format!("{RETURN}|list {due}{}", "|null".repeat(there))
    }

    #[test]
    fn line_2049() {
        assert_eq!(read(&sheet(&nulls(2044, 2044))).unwrap().len(), 2048);
        assert_eq!(fault(&sheet(&nulls(2045, 2045))), (4, 2049, Why::Line2049));
        // What the line holds comes after its number; that it is there and due comes before.
        let full = nulls(2045, 2044);
        assert_eq!(fault(&sheet(&format!("{full}|what"))), (4, 2049, Why::Line2049));
        assert_eq!(fault(&sheet(&full)), (3, 2049, Why::Missing));
        let cut = [&sheet(&full)[..], b"null"].concat();
        assert_eq!(fault(&cut), (3, 2049, Why::NoLineFeed));
        assert_eq!(fault(&sheet(&nulls(2044, 2045))), (3, 2049, Why::NothingDue));
    }

    /// A return of so many `un` in each other; the first is the fourth deep.
    fn nested(count: usize) -> String {
        format!("{RETURN}{}", "|un 1".repeat(count))
    }

    #[test]
    fn depth_65() {
        assert_eq!(read(&sheet(&(nested(60) + "|null"))).unwrap().len(), 64);
        let full = nested(61);
        assert_eq!(fault(&sheet(&(full.clone() + "|null"))), (4, 65, Why::Depth65));
        assert_eq!(fault(&sheet(&(full.clone() + "|what"))), (4, 65, Why::Depth65));
        assert_eq!(fault(&sheet(&full)), (3, 65, Why::Missing));
        let cut = [&sheet(&full)[..], b"null"].concat();
        assert_eq!(fault(&cut), (3, 65, Why::NoLineFeed));
        // Names and the clauses of an arm count like any child.
        assert_eq!(fault(&sheet(&(nested(60) + "|map 1|name a"))), (4, 65, Why::Depth65));
        let arm = format!("stmt 0 1|arm 0 1|where 0 0{}|null", "|un 1".repeat(61));
        assert_eq!(fault(&sheet(&arm)), (4, 65, Why::Depth65));
    }

    #[test]
    fn line_2049_before_depth_65() {
        let both = format!("{}{}|null", nulls(1985, 1984), "|un 1".repeat(60));
        assert_eq!(fault(&sheet(&both)), (4, 2049, Why::Line2049));
    }

    #[test]
    fn the_first_line_at_fault_counts() {
        assert_eq!(fault(&sheet(&(nested(61) + "|null|what|what"))), (4, 65, Why::Depth65));
        assert_eq!(fault(&sheet("stmt 2 0|what|what")), (3, 2, Why::Form));
    }

    #[test]
    fn large_counts_cost_nothing() {
        let most = u32::MAX;
        assert_eq!(fault(&sheet(&format!("stmt {most} {most}"))), (3, 2, Why::Missing));
        for record in ["list", "map", "pat", "fn a", "case 1"] {
            let tail = if record.contains(' ') { " 1" } else { "" };
            let lines = format!("{RETURN}|{record} {most}{tail}");
            assert_eq!(fault(&sheet(&lines)), (3, 5, Why::Missing));
        }
    }

    /// Sheets with a few bytes changed by chance: none makes the reader panic, and all of them
    /// that are read have one record a line.
    #[test]
    fn any_bytes_may_come() {
        let whole = sheet(
            "stmt 2 1|match 0 1 0 14|part - 0 2|node 7 1 1 6 14|name Book|map 1|name a|int -3|\
             rel - 0 2 var 1 - 0 1 2|return 1 0 0 0 0 15 29|item =x|case 1 1 1|null|null|null|null|\
             arm 1 1|call f 1 1 0 0 0|str a|yield b 1",
        );
        let mut chance = 1u64;
        let mut draw = |limit: usize| {
            chance = chance.wrapping_mul(6364136223846793005).wrapping_add(1442695040888963407);
            (chance >> 33) as usize % limit
        };
        for _ in 0..50_000 {
            let mut bytes = whole.clone();
            for _ in 0..=draw(3) {
                let at = draw(bytes.len());
                bytes[at] = b"\t\n\\-01239=a\xff"[draw(12)];
            }
            bytes.truncate(bytes.len() - draw(2) * draw(bytes.len()));
            if let Ok(records) = read(&bytes) {
                assert_eq!(records.len(), bytes.iter().filter(|&&byte| byte == b'\n').count());
            }
        }
    }
}
