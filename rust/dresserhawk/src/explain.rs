//! Where a sheet stops being one, and what was due there: the words for
//! refusals 3 and 4, whose numbers and lines are the proved calls'.
//!
//! A reading of its own, by the table of [`crate::grammar`]. The tests hold the
//! lines that it finds against those that the calls tell.

use crate::grammar::{MOST_DEEP, MOST_LINES, Record, Sort, record};

/// The record that is due at a line.
#[derive(Debug, Clone, Copy, PartialEq, Eq)]
pub struct Due {
    pub sort: Sort,
    /// Whose child it is; none for the statement.
    pub parent: Option<Parent>,
    /// `stmt` has depth 1.
    pub depth: usize,
}

/// Which child of which record.
#[derive(Debug, Clone, Copy, PartialEq, Eq)]
pub struct Parent {
    pub record: &'static Record,
    pub line: usize,
    /// What its parent calls it.
    pub group: &'static str,
    /// It is the one with this number, from 1, of so many.
    pub nth: u32,
    pub of: u32,
}

/// What is the matter with a line.
#[derive(Debug, Clone, Copy, PartialEq, Eq)]
pub enum Matter {
    /// The sheet ends, and a record is due.
    Missing,
    /// The tree is complete, and a line follows.
    NothingDue,
    /// The last line has no line feed.
    NoLineFeed,
    TooManyLines,
    TooDeep,
    /// The first word is no record's.
    NoRecord,
    /// It is a record's that may not stand here.
    NotDue(&'static Record),
    /// So many columns, the first word counted.
    Columns {
        record: &'static Record,
        found: usize,
    },
    /// The field in this place, which begins at this column (from 0, the first
    /// word counted), does not say what it should.
    Field {
        record: &'static Record,
        field: usize,
        column: usize,
    },
}

/// The first line at which a sheet is no sheet.
#[derive(Debug, Clone, PartialEq, Eq)]
pub struct Fault {
    /// From 1; the line after the last if a record is missing.
    pub line: usize,
    /// None where nothing is due.
    pub due: Option<Due>,
    pub matter: Matter,
}

/// The first line at which a sheet is no sheet, if there is one.
pub fn fault(sheet: &[u8]) -> Option<Fault> {
    let mut reader = Reader { open: Vec::new(), line: 0 };
    let mut rest = sheet;
    loop {
        let due = reader.due();
        let line = reader.line + 1;
        let found = |matter| Some(Fault { line, due, matter });
        let Some(due) = due else {
            return if rest.is_empty() { None } else { found(Matter::NothingDue) };
        };
        if rest.is_empty() {
            return found(Matter::Missing);
        }
        let Some(feed) = rest.iter().position(|&byte| byte == b'\n') else {
            return found(Matter::NoLineFeed);
        };
        if line > MOST_LINES {
            return found(Matter::TooManyLines);
        }
        if due.depth > MOST_DEEP {
            return found(Matter::TooDeep);
        }
        if let Err(matter) = reader.take(due.sort, &rest[..feed]) {
            return found(matter);
        }
        rest = &rest[feed + 1..];
    }
}

/// The record that is due at a line of a sheet that can be read so far.
pub fn due_at(sheet: &[u8], line: usize) -> Option<Due> {
    let mut reader = Reader { open: Vec::new(), line: 0 };
    for text in sheet.split(|&byte| byte == b'\n').take(line - 1) {
        let due = reader.due()?;
        reader.take(due.sort, text).ok()?;
    }
    reader.due()
}

/// Whether a line is a record of this sort, or what is the matter with it.
pub fn fits(sort: Sort, line: &[u8]) -> Result<(), Matter> {
    Reader { open: Vec::new(), line: 0 }.take(sort, line)
}

/// A record some of whose children are still due.
struct Open {
    record: &'static Record,
    line: usize,
    times: Vec<u32>,
    /// The group at hand, how often its sorts have come, and the next of them.
    group: usize,
    turn: u32,
    place: usize,
}

/// The records that are open, the statement first, and the lines that were read.
struct Reader {
    open: Vec<Open>,
    line: usize,
}

impl Reader {
    fn due(&mut self) -> Option<Due> {
        if self.line == 0 {
            return Some(Due { sort: Sort::Stmt, parent: None, depth: 1 });
        }
        while self.open.last_mut()?.complete() {
            self.open.pop();
        }
        let depth = self.open.len() + 1;
        let open = self.open.last()?;
        let group = &open.record.groups[open.group];
        let parent = Parent {
            record: open.record,
            line: open.line,
            group: group.name,
            nth: open.turn + 1,
            of: open.times[open.group],
        };
        Some(Due { sort: group.sorts[open.place], parent: Some(parent), depth })
    }

    /// Takes a line as a record of this sort, if it is one.
    fn take(&mut self, sort: Sort, line: &[u8]) -> Result<(), Matter> {
        let columns: Vec<&[u8]> = line.split(|&byte| byte == b'\t').collect();
        let record = record(columns[0]).ok_or(Matter::NoRecord)?;
        if record.sort != sort {
            return Err(Matter::NotDue(record));
        }
        if columns.len() != record.columns() {
            return Err(Matter::Columns { record, found: columns.len() });
        }
        let values = record.read(&columns[1..]).map_err(|field| {
            let before = &record.fields[..field];
            let column = 1 + before.iter().map(|field| field.form.columns()).sum::<usize>();
            Matter::Field { record, field, column }
        })?;
        self.line += 1;
        if let Some(parent) = self.open.last_mut() {
            parent.step();
        }
        let times = record.times(&values);
        self.open.push(Open { record, line: self.line, times, group: 0, turn: 0, place: 0 });
        Ok(())
    }
}

impl Open {
    /// Goes on to the next group with a child that is due; false if there is one.
    fn complete(&mut self) -> bool {
        while self.group < self.times.len() && self.turn == self.times[self.group] {
            self.group += 1;
            self.turn = 0;
        }
        self.group == self.times.len()
    }

    /// A child has come.
    fn step(&mut self) {
        self.place += 1;
        if self.place == self.record.groups[self.group].sorts.len() {
            self.place = 0;
            self.turn += 1;
        }
    }
}
