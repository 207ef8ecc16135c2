//! From the bytes of a sheet to the statement tree of cyrs-hir, built for
//! speed: what the Rust would read sheets with if they were its own format.
//!
//! One pass, no list of lines or fields between. A keyword is loaded as one
//! word and matched as a number; numbers are read where they stand; each text
//! is copied once, into its `SmolStr`; lists are allocated at their length. It
//! reads exactly the sheets that are well-formed, UTF-8 and read-only, and says
//! no more of any other than that it is none of these.

use super::tree::{BIN_OPS, ID, LIST_KINDS, no_span, range, undesugared};
use crate::reading::sheet::{MOST_DEEP, MOST_LINES};
use cyrs_hir::{
    Clause, Direction, Expr, OrderItem, Pattern, PatternElement, PatternPart, Projection,
    RelLength, ShortestPath, Statement, UnaryOp, UnionArm, VarId, YieldItem,
};
use cyrs_syntax::TextRange;
use smol_str::SmolStr;

/// A keyword as `Reader::keyword` loads it.
const fn packed(word: &str) -> u64 {
    let bytes = word.as_bytes();
    let (mut all, mut at) = (0, bytes.len());
    while at > 0 {
        at -= 1;
        all = all << 8 | bytes[at] as u64;
    }
    all
}

macro_rules! keywords {
    ($($name:ident $word:literal)*) => { $(const $name: u64 = packed($word);)* };
}

keywords! {
    STMT "stmt" ARM "arm" MATCH "match" WHERE "where" WITH "with" RETURN "return"
    UNWIND "unwind" CALL "call" YIELD "yield" ITEM "item" KEY "key" PART "part" NODE "node"
    REL "rel" NAME "name" NULL "null" BOOL "bool" INT "int" FLOAT "float" STR "str" VAR "var"
    PARAM "param" PROP "prop" INDEX "index" SLICE "slice" LIST "list" MAP "map" FN "fn"
    BIN "bin" UN "un" CASE "case" ISNULL "isnull" IN "in" PAT "pat" LISTP "listp"
    UNRES "unres" UNDES "undes"
}

/// Each byte of a word.
const EACH: u64 = 0x0101_0101_0101_0101;

/// How many bytes come before the first tab, line feed or backslash, or in all:
/// eight at a time, where a byte is 0 in a word exactly if the lowest high bit of
/// `(word - EACH) & !word` is its own.
pub fn plain(bytes: &[u8]) -> usize {
    let mut at = 0;
    while let Some(eight) = bytes[at..].first_chunk() {
        let eight = u64::from_le_bytes(*eight);
        let is = |byte: u8| {
            let word = eight ^ (EACH * u64::from(byte));
            word.wrapping_sub(EACH) & !word & (EACH * 0x80)
        };
        let found = is(b'\t') | is(b'\n') | is(b'\\');
        if found != 0 {
            return at + found.trailing_zeros() as usize / 8;
        }
        at += 8;
    }
    let special = |byte: &u8| matches!(byte, b'\t' | b'\n' | b'\\');
    bytes[at..].iter().position(special).map_or(bytes.len(), |more| at + more)
}

/// The tree, if the sheet has one.
pub fn statement(sheet: &[u8]) -> Option<Statement> {
    let text = std::str::from_utf8(sheet).ok()?;
    let mut reader = Reader { text, bytes: sheet, at: 0, lines: MOST_LINES as u32 };
    let statement = reader.statement()?;
    (reader.at == sheet.len()).then_some(statement)
}

/// The sheet, as text and as bytes; where it is read on; how many lines may come.
struct Reader<'s> {
    text: &'s str,
    bytes: &'s [u8],
    at: usize,
    lines: u32,
}

/// Fields. Each takes the tab before it.
impl<'s> Reader<'s> {
    /// The keyword of the next line, for a record of this depth. It ends at the
    /// first byte below a blank; what that byte is, the next field tests.
    #[inline]
    fn keyword(&mut self, depth: u32) -> Option<u64> {
        if self.lines == 0 || depth > MOST_DEEP as u32 {
            return None;
        }
        self.lines -= 1;
        let rest = &self.bytes[self.at..];
        let eight = match rest.first_chunk() {
            Some(eight) => u64::from_le_bytes(*eight),
            None => rest.iter().rev().fold(0, |all, &byte| all << 8 | u64::from(byte)),
        };
        let below = eight.wrapping_sub(EACH * 0x20) & !eight & (EACH * 0x80);
        if below == 0 {
            return None;
        }
        let bits = below.trailing_zeros() & !7;
        self.at += bits as usize / 8;
        Some(eight & ((1 << bits) - 1))
    }

    /// The next line's keyword is this one.
    #[inline]
    fn due(&mut self, word: u64, depth: u32) -> Option<()> {
        (self.keyword(depth)? == word).then_some(())
    }

    #[inline]
    fn peek(&self) -> Option<u8> {
        self.bytes.get(self.at).copied()
    }

    #[inline]
    fn byte(&mut self, due: u8) -> Option<()> {
        let there = self.peek()? == due;
        self.at += 1;
        there.then_some(())
    }

    #[inline]
    fn tab(&mut self) -> Option<()> {
        self.byte(b'\t')
    }

    /// The end of a line.
    #[inline]
    fn end(&mut self) -> Option<()> {
        self.byte(b'\n')
    }

    #[inline]
    fn digit(&self) -> Option<u64> {
        let digit = self.peek()?.wrapping_sub(b'0');
        (digit < 10).then_some(u64::from(digit))
    }

    /// Digits up to this number. A digit behind a leading zero is left, and so
    /// no end of the field.
    #[inline]
    fn digits(&mut self, most: u64) -> Option<u64> {
        let mut value = self.digit()?;
        self.at += 1;
        if value == 0 {
            return Some(0);
        }
        while let Some(digit) = self.digit() {
            value = value.checked_mul(10)?.checked_add(digit)?;
            self.at += 1;
        }
        (value <= most).then_some(value)
    }

    #[inline]
    fn number(&mut self) -> Option<u32> {
        self.tab()?;
        Some(self.digits(u64::from(u32::MAX))? as u32)
    }

    #[inline]
    fn below(&mut self, limit: u32) -> Option<u32> {
        self.number().filter(|&picked| picked < limit)
    }

    #[inline]
    fn flag(&mut self) -> Option<bool> {
        self.tab()?;
        let digit = self.digit().filter(|&digit| digit < 2)?;
        self.at += 1;
        Some(digit == 1)
    }

    #[inline]
    fn or_absent(&mut self, most: u64) -> Option<Option<u64>> {
        self.tab()?;
        if self.peek()? == b'-' {
            self.at += 1;
            return Some(None);
        }
        self.digits(most).map(Some)
    }

    #[inline]
    fn binder(&mut self) -> Option<Option<VarId>> {
        Some(self.or_absent(u64::from(u32::MAX))?.map(|id| VarId(id as u32)))
    }

    #[inline]
    fn var(&mut self) -> Option<VarId> {
        self.number().map(VarId)
    }

    /// A span, which is the last of its line.
    #[inline]
    fn last_span(&mut self) -> Option<TextRange> {
        let span = (self.number()?, self.number()?);
        self.end()?;
        (span.0 <= span.1).then(|| range(span))
    }

    fn int(&mut self) -> Option<i64> {
        self.tab()?;
        if self.peek()? == b'-' {
            self.at += 1;
            let value = self.digits(1 << 63)?;
            return (value != 0).then_some(0i64.wrapping_sub_unsigned(value));
        }
        Some(self.digits(i64::MAX as u64)? as i64)
    }

    fn float(&mut self) -> Option<f64> {
        self.tab()?;
        let mut bits = 0;
        for _ in 0..16 {
            let digit = match self.peek()? {
                byte @ b'0'..=b'9' => byte - b'0',
                byte @ b'a'..=b'f' => byte - b'a' + 10,
                _ => return None,
            };
            bits = bits << 4 | u64::from(digit);
            self.at += 1;
        }
        Some(f64::from_bits(bits))
    }

    fn length(&mut self) -> Option<RelLength> {
        let four = *self.bytes[self.at..].first_chunk()?;
        self.at += 4;
        match &four {
            b"\tone" => {
                let none = self.bytes[self.at..].starts_with(b"\t-\t-");
                self.at += 4;
                none.then_some(RelLength::Single)
            }
            b"\tvar" => Some(RelLength::Variable {
                min: self.or_absent(u64::MAX)?,
                max: self.or_absent(u64::MAX)?,
            }),
            _ => None,
        }
    }

    #[inline]
    fn text(&mut self) -> Option<SmolStr> {
        self.tab()?;
        self.bare_text()
    }

    /// A text up to the tab or line feed behind it.
    #[inline]
    fn bare_text(&mut self) -> Option<SmolStr> {
        let end = self.at + plain(&self.bytes[self.at..]);
        if self.bytes.get(end) == Some(&b'\\') {
            return self.escaped();
        }
        let text = SmolStr::new(&self.text[self.at..end]);
        self.at = end;
        Some(text)
    }

    #[cold]
    fn escaped(&mut self) -> Option<SmolStr> {
        let mut said = String::new();
        loop {
            let end = self.at + plain(&self.bytes[self.at..]);
            said.push_str(&self.text[self.at..end]);
            self.at = end;
            if *self.bytes.get(end)? != b'\\' {
                return Some(SmolStr::new(said));
            }
            said.push(match self.bytes.get(end + 1)? {
                b't' => '\t',
                b'n' => '\n',
                b'\\' => '\\',
                _ => return None,
            });
            self.at += 2;
        }
    }
}

/// Records. Each has its depth, and its children one more.
impl<'s> Reader<'s> {
    #[inline]
    fn many<T>(
        &mut self,
        count: u32,
        mut one: impl FnMut(&mut Self) -> Option<T>,
    ) -> Option<Vec<T>> {
        let mut all = Vec::with_capacity(count.min(self.lines) as usize);
        for _ in 0..count {
            all.push(one(self)?);
        }
        Some(all)
    }

    #[inline]
    fn boxed(&mut self, depth: u32) -> Option<Box<Expr>> {
        self.expr(depth).map(Box::new)
    }

    #[inline]
    fn flagged(&mut self, there: bool, depth: u32) -> Option<Option<Expr>> {
        if there { self.expr(depth).map(Some) } else { Some(None) }
    }

    #[inline]
    fn flagged_box(&mut self, there: bool, depth: u32) -> Option<Option<Box<Expr>>> {
        if there { self.boxed(depth).map(Some) } else { Some(None) }
    }

    fn exprs(&mut self, count: u32, depth: u32) -> Option<Vec<Expr>> {
        self.many(count, |reader| reader.expr(depth))
    }

    fn statement(&mut self) -> Option<Statement> {
        self.due(STMT, 1)?;
        let (clauses, arms) = (self.number()?, self.number()?);
        self.end()?;
        let mut statement = Statement::new(no_span());
        statement.clauses = self.many(clauses, |reader| reader.clause(2))?;
        statement.unions = self.many(arms, Self::arm)?;
        Some(statement)
    }

    fn arm(&mut self) -> Option<UnionArm> {
        self.due(ARM, 2)?;
        let (all, clauses) = (self.flag()?, self.number()?);
        self.end()?;
        let clauses = self.many(clauses, |reader| reader.clause(3))?;
        Some(UnionArm { id: ID, all, clauses, span: no_span() })
    }

    fn clause(&mut self, depth: u32) -> Option<Clause> {
        let below = depth + 1;
        Some(match self.keyword(depth)? {
            MATCH => {
                let (optional, parts) = (self.flag()?, self.number()?);
                let span = self.last_span()?;
                Clause::Match { id: ID, optional, pattern: self.pattern(parts, below)?, span }
            }
            WHERE => {
                let span = self.last_span()?;
                Clause::Where { id: ID, predicate: self.expr(below)?, span }
            }
            WITH => {
                let (items, filter, keys) = (self.number()?, self.flag()?, self.number()?);
                let (skip, limit, span) = (self.flag()?, self.flag()?, self.last_span()?);
                Clause::With {
                    id: ID,
                    projections: self.many(items, |reader| reader.item(below))?,
                    filter: self.flagged(filter, below)?,
                    order_by: self.many(keys, |reader| reader.key(below))?,
                    skip: self.flagged(skip, below)?,
                    limit: self.flagged(limit, below)?,
                    span,
                }
            }
            RETURN => {
                let (items, distinct, keys) = (self.number()?, self.flag()?, self.number()?);
                let (skip, limit, span) = (self.flag()?, self.flag()?, self.last_span()?);
                Clause::Return {
                    id: ID,
                    projections: self.many(items, |reader| reader.item(below))?,
                    distinct,
                    order_by: self.many(keys, |reader| reader.key(below))?,
                    skip: self.flagged(skip, below)?,
                    limit: self.flagged(limit, below)?,
                    span,
                }
            }
            UNWIND => {
                let (bind, span) = (self.var()?, self.last_span()?);
                Clause::Unwind { id: ID, list: self.expr(below)?, bind, span }
            }
            CALL => {
                let (procedure, args, yields) = (self.text()?, self.number()?, self.number()?);
                let (optional, span) = (self.flag()?, self.last_span()?);
                Clause::Call {
                    id: ID,
                    procedure,
                    args: self.exprs(args, below)?,
                    yields: self.many(yields, |reader| reader.yield_(below))?,
                    optional,
                    span,
                }
            }
            _ => return None,
        })
    }

    fn item(&mut self, depth: u32) -> Option<Projection> {
        self.due(ITEM, depth)?;
        self.tab()?;
        let sign = self.peek()?;
        self.at += 1;
        let alias = match sign {
            b'-' => None,
            b'=' => Some(self.bare_text()?),
            _ => return None,
        };
        self.end()?;
        Some(Projection { expr: self.expr(depth + 1)?, alias, span: no_span() })
    }

    fn key(&mut self, depth: u32) -> Option<OrderItem> {
        self.due(KEY, depth)?;
        let descending = self.flag()?;
        self.end()?;
        Some(OrderItem { expr: self.expr(depth + 1)?, descending, span: no_span() })
    }

    fn yield_(&mut self, depth: u32) -> Option<YieldItem> {
        self.due(YIELD, depth)?;
        let (name, var) = (self.text()?, self.var()?);
        self.end()?;
        Some(YieldItem { name, alias: None, var })
    }

    fn name(&mut self, depth: u32) -> Option<SmolStr> {
        self.due(NAME, depth)?;
        let name = self.text()?;
        self.end()?;
        Some(name)
    }

    fn pattern(&mut self, parts: u32, depth: u32) -> Option<Pattern> {
        Some(Pattern { parts: self.many(parts, |reader| reader.part(depth))? })
    }

    fn part(&mut self, depth: u32) -> Option<PatternPart> {
        self.due(PART, depth)?;
        let named_as = self.binder()?;
        let shortest = match self.below(3)? {
            0 => ShortestPath::No,
            1 => ShortestPath::Shortest,
            _ => ShortestPath::AllShortest,
        };
        let elements = self.number()?;
        self.end()?;
        let elements = self.many(elements, |reader| reader.element(depth + 1))?;
        Some(PatternPart { named_as, elements, shortest })
    }

    fn element(&mut self, depth: u32) -> Option<PatternElement> {
        let below = depth + 1;
        Some(match self.keyword(depth)? {
            NODE => {
                let (bind, labels, props) = (self.binder()?, self.number()?, self.flag()?);
                let span = self.last_span()?;
                PatternElement::Node {
                    id: ID,
                    bind,
                    labels: self.many(labels, |reader| reader.name(below))?,
                    props: self.flagged(props, below)?,
                    span,
                }
            }
            REL => {
                let (bind, types) = (self.binder()?, self.number()?);
                let direction = match self.below(3)? {
                    0 => Direction::Outgoing,
                    1 => Direction::Incoming,
                    _ => Direction::Undirected,
                };
                let (length, props, span) = (self.length()?, self.flag()?, self.last_span()?);
                PatternElement::Rel {
                    id: ID,
                    bind,
                    types: self.many(types, |reader| reader.name(below))?,
                    direction,
                    length,
                    props: self.flagged(props, below)?,
                    span,
                }
            }
            _ => return None,
        })
    }

    /// A field, and the end of its line behind it.
    #[inline]
    fn last<T>(&mut self, field: impl FnOnce(&mut Self) -> Option<T>) -> Option<T> {
        let value = field(self)?;
        self.end()?;
        Some(value)
    }

    fn expr(&mut self, depth: u32) -> Option<Expr> {
        let below = depth + 1;
        Some(match self.keyword(depth)? {
            NULL => {
                self.end()?;
                Expr::Null
            }
            BOOL => Expr::Bool(self.last(Self::flag)?),
            INT => Expr::Int(self.last(Self::int)?),
            FLOAT => Expr::Float(self.last(Self::float)?),
            STR => Expr::String(self.last(Self::text)?),
            VAR => Expr::Var(self.last(Self::var)?),
            PARAM => Expr::Param(self.last(Self::text)?),
            PROP => {
                let prop = self.last(Self::text)?;
                Expr::Prop { target: self.boxed(below)?, prop }
            }
            INDEX => {
                self.end()?;
                Expr::Index { target: self.boxed(below)?, index: self.boxed(below)? }
            }
            SLICE => {
                let (start, end) = (self.flag()?, self.last(Self::flag)?);
                Expr::Slice {
                    target: self.boxed(below)?,
                    start: self.flagged_box(start, below)?,
                    end: self.flagged_box(end, below)?,
                }
            }
            LIST => {
                let count = self.last(Self::number)?;
                Expr::List(self.exprs(count, below)?)
            }
            MAP => {
                let count = self.last(Self::number)?;
                Expr::Map(
                    self.many(count, |reader| Some((reader.name(below)?, reader.expr(below)?)))?,
                )
            }
            FN => {
                let (name, args) = (self.text()?, self.number()?);
                let distinct = self.last(Self::flag)?;
                Expr::Call { name, args: self.exprs(args, below)?, distinct }
            }
            BIN => {
                let op = *BIN_OPS.get(self.last(Self::number)? as usize)?;
                Expr::BinOp { op, lhs: self.boxed(below)?, rhs: self.boxed(below)? }
            }
            UN => {
                let op = if self.last(Self::flag)? { UnaryOp::Not } else { UnaryOp::Neg };
                Expr::UnaryOp { op, operand: self.boxed(below)? }
            }
            CASE => {
                let (scrutinee, arms) = (self.flag()?, self.number()?);
                let otherwise = self.last(Self::flag)?;
                let pair = |reader: &mut Self| Some((reader.expr(below)?, reader.expr(below)?));
                Expr::Case {
                    scrutinee: self.flagged_box(scrutinee, below)?,
                    arms: self.many(arms, pair)?,
                    otherwise: self.flagged_box(otherwise, below)?,
                }
            }
            ISNULL => {
                let negated = self.last(Self::flag)?;
                Expr::IsNull { operand: self.boxed(below)?, negated }
            }
            IN => {
                self.end()?;
                Expr::InList { operand: self.boxed(below)?, list: self.boxed(below)? }
            }
            PAT => {
                let parts = self.last(Self::number)?;
                Expr::PatternPredicate(self.pattern(parts, below)?)
            }
            LISTP => {
                let kind = *LIST_KINDS.get(self.number()? as usize)?;
                let (var, pred) = (self.var()?, self.last(Self::flag)?);
                Expr::ListPredicate {
                    kind,
                    var,
                    iterable: self.boxed(below)?,
                    predicate: self.flagged_box(pred, below)?,
                }
            }
            UNRES => Expr::Unresolved(self.last(Self::text)?),
            UNDES => undesugared(self.last(|reader| reader.below(4))?),
            _ => return None,
        })
    }
}

#[cfg(test)]
mod held_to_the_other {
    use super::statement;
    use crate::original::{Said, ask, print, tree};
    use crate::reading::sheet::{Form, read};
    use crate::run::case;

    /// The tree by the independent reading, of a sheet that is read-only and UTF-8.
    fn slow(sheet: &[u8]) -> Option<cyrs_hir::Statement> {
        let records = read(sheet).ok()?;
        let writes = records.iter().any(|record| matches!(record.form, Form::Write { .. }));
        (!writes && std::str::from_utf8(sheet).is_ok()).then(|| tree::statement(&records))
    }

    /// The plan, if there is a tree and it is not refused.
    fn plan(tree: Option<&cyrs_hir::Statement>) -> Vec<u8> {
        let mut out = Vec::new();
        if let Some(Said::Plan(plan)) = tree.map(ask) {
            print::plan(&plan, &mut out);
        }
        out
    }

    /// Whether the sheet is read, by both and to the same tree. All NaN are
    /// shown alike, so the plans are compared as well.
    fn same(sheet: &[u8]) -> bool {
        let (quick, slow) = (statement(sheet), slow(sheet));
        let text = || String::from_utf8_lossy(sheet).into_owned();
        assert_eq!(format!("{quick:?}"), format!("{slow:?}"), "{}", text());
        assert_eq!(plan(quick.as_ref()), plan(slow.as_ref()), "{}", text());
        quick.is_some()
    }

    /// Well-formed, damaged and at the limits, as the comparison has them.
    #[test]
    fn the_same_tree_of_the_same_sheets() {
        let read = (0..6_000).filter(|&number| same(&case(6, number).sheet)).count();
        assert!((2_000..5_500).contains(&read), "{read} read");
    }

    /// Every record and field kind, each byte of it changed in turn.
    #[test]
    fn each_byte_counts() {
        let lines = "stmt 9 1|match 0 1 0 14|part 3 2 3|node 7 1 1 6 14|name Book|map 1|name a|\
            int -3|rel - 1 2 var 1 - 1 1 2|name T|float 3ff0000000000000|\
            rel 12 0 0 one - - 0 3 4|where 1 2|bin 19|var 42|un 1|isnull 0|in|param p|list 0|\
            with 1 1 1 1 1 1 9|item =x\\ty|null|bool 1|key 1|str \\n\\\\|int 0|index|var 0|null|\
            return 1 1 1 0 0 5 6|item -|case 1 1 1|null|null|null|null|key 0|slice 1 1|null|\
            null|null|unwind 4 0 0|fn count 1 1|prop q|var 3|call f 1 1 0 0 0|str a|yield b 1|\
            match 1 0 2 3|where 0 0|pat 1|part - 0 1|node - 0 0 0 0|\
            where 0 0|listp 3 8 1|unres u|undes 2|arm 1 1|where 0 1|int 9223372036854775807";
        let whole = lines.replace(' ', "\t").replace('|', "\n") + "\n";
        assert!(same(whole.as_bytes()), "the whole sheet is read");
        for at in 0..whole.len() {
            for byte in *b"\t\n\\-=019ax\x1f\xc3" {
                let mut changed = whole.clone().into_bytes();
                changed[at] = byte;
                same(&changed);
            }
            same(&whole.as_bytes()[..at]);
        }
    }
}
