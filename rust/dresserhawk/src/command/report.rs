//! A refusal as compilers speak: file and line, what is wrong, the line's text
//! with a mark under the place, what was due there, and hints.

use super::hint;
use dresserhawk::explain::{self, Due, Fault, Matter};
use dresserhawk::grammar::{Form, MOST_LINES, Record, Sort};
use dresserhawk::{PairRefusal, Refusal, Side, Span};
use std::fmt::Write;
use std::ops::Range;

/// Longest part of a column that is shown, and most columns.
const LETTERS: usize = 60;
const COLUMNS: usize = 20;

/// What is said about a refused sheet.
pub fn refusal(name: &str, sheet: &[u8], refusal: Refusal) -> String {
    said(name, sheet, refusal, &format!("refusal {}", refusal.number()))
}

/// A sheet behind the name of its file.
type Named = (String, Vec<u8>);

/// What is said about two refused sheets. Of the one that is refused it is what
/// is said of one alone, and which it is, since both may be the same file. Where
/// it is neither, it is the plan of both, and there is no line to show.
pub fn pair_refusal(left: &Named, right: &Named, refused: PairRefusal) -> String {
    let PairRefusal { side, refusal } = refused;
    let number = format!("refusal {}", refusal.number());
    let of = |(name, sheet): &Named, side: Side| {
        said(name, sheet, refusal, &format!("{number}, {side} sheet"))
    };
    match side {
        Some(Side::Left) => of(left, Side::Left),
        Some(Side::Right) => of(right, Side::Right),
        None => said(&format!("{} and {}", left.0, right.0), &[], refusal, &number),
    }
}

/// `number` says which refusal it is.
fn said(name: &str, sheet: &[u8], refusal: Refusal, number: &str) -> String {
    let told = tell(sheet, refusal);
    let mut text = match told.line {
        Some(line) => format!("{name}:{line}: error: {} ({number})\n", told.what),
        None => format!("{name}: error: {} ({number})\n", told.what),
    };
    if let Some(line) = told.line {
        text += &quote(sheet, line, told.marked);
    }
    if let Some(due) = told.due {
        let _ = writeln!(text, "      = due here: {due}");
    }
    for hint in told.hints {
        let _ = writeln!(text, "      = hint: {hint}");
    }
    text
}

/// What is wrong; where; the columns to be marked; what was due; hints.
#[derive(Default)]
struct Told {
    what: String,
    line: Option<usize>,
    marked: Range<usize>,
    due: Option<String>,
    hints: Vec<String>,
}

fn tell(sheet: &[u8], refusal: Refusal) -> Told {
    let line = line_of(refusal);
    match refusal {
        Refusal::BadLine { .. } | Refusal::BigTree { .. } => match explain::fault(sheet) {
            Some(fault) if Some(fault.line) == line => tell_fault(sheet, fault),
            // The reading here is not proved; the call's answer is.
            _ => Told { what: refusal.to_string(), line, ..Told::default() },
        },
        _ => tell_tree(sheet, refusal, line),
    }
}

fn line_of(refusal: Refusal) -> Option<usize> {
    match refusal {
        Refusal::BadLine { line }
        | Refusal::BigTree { line }
        | Refusal::WriteClause { line }
        | Refusal::Unresolved { line, .. }
        | Refusal::Undesugared { line, .. }
        | Refusal::EmptyPart { line, .. } => Some(line as usize),
        Refusal::ShortWork | Refusal::LongSheet | Refusal::PlanFull | Refusal::NoRoom => None,
    }
}

/// Refusals 3 and 4.
fn tell_fault(sheet: &[u8], fault: Fault) -> Told {
    let text = line(sheet, fault.line);
    let columns = text.split(|&byte| byte == b'\t').count();
    let (what, marked) = match fault.matter {
        Matter::Missing => ("the sheet ends where a record is due".to_string(), 0..0),
        Matter::NothingDue => ("a line behind the end of the statement".to_string(), 0..columns),
        Matter::NoLineFeed => ("the line does not end in a line feed".to_string(), 0..0),
        Matter::TooManyLines => ("over 2,048 records".to_string(), 0..columns),
        Matter::TooDeep => ("a record deeper than 64".to_string(), 0..columns),
        Matter::NoRecord => {
            let word = text.split(|&byte| byte == b'\t').next().unwrap_or_default();
            (format!("`{}` is no record", shown(word)), 0..1)
        }
        Matter::NotDue(record) => (format!("a `{}` record is not due", record.keyword), 0..1),
        Matter::Columns { record, found } => {
            let (due, found) = (record.columns() - 1, found - 1);
            (format!("`{}` with {found} fields behind it, not {due}", record.keyword), 0..columns)
        }
        Matter::Field { record, field, column } => {
            let field = record.fields[field];
            let what = format!("field `{}` of `{}` is not right", field.name, record.keyword);
            (what, column..column + field.form.columns())
        }
    };
    let due = due_words(&fault);
    let hints = hint::hints(sheet, text, &fault);
    Told { what, line: Some(fault.line), marked, due: Some(due), hints }
}

fn due_words(fault: &Fault) -> String {
    let Some(due) = &fault.due else {
        return format!("nothing: by its counts the statement ends with line {}", fault.line - 1);
    };
    let place = place(due);
    match fault.matter {
        Matter::TooManyLines => format!("nothing: a sheet has at most {MOST_LINES} records"),
        Matter::TooDeep => {
            format!("nothing so deep: this {} has depth {}", due.sort.name(), due.depth)
        }
        Matter::NoLineFeed => format!("a line feed behind the {}{place}", due.sort.name()),
        Matter::Columns { record, .. } => format!("`{}`{place}", shape(record)),
        Matter::Field { record, field, .. } => {
            format!("{}, in `{}`{place}", record.fields[field].form.name(), shape(record))
        }
        _ => format!("{}{place}", sort_words(due.sort)),
    }
}

/// The records that may stand at a place.
fn sort_words(sort: Sort) -> String {
    let words: Vec<String> = sort.records().map(|record| format!("`{}`", record.keyword)).collect();
    match &words[..] {
        [word] => word.clone(),
        _ => {
            let article = if sort.name().starts_with(['a', 'e', 'i']) { "an" } else { "a" };
            format!("{article} {} ({})", sort.name(), words.join(", "))
        }
    }
}

/// Which child of which record.
fn place(due: &Due) -> String {
    let Some(parent) = &due.parent else { return ", the first line".to_string() };
    let (keyword, line, group) = (parent.record.keyword, parent.line, parent.group);
    match parent.of {
        1 => format!(", the {group} of `{keyword}` in line {line}"),
        of => format!(", {group} {} of {of} of `{keyword}` in line {line}", parent.nth),
    }
}

/// A record's line, with its fields' names.
fn shape(record: &Record) -> String {
    let mut words = vec![record.keyword.to_string()];
    for field in record.fields {
        words.push(match field.form {
            Form::Span => "START END".to_string(),
            Form::Length => "LENGTH LEAST GREATEST".to_string(),
            _ => field.name.to_uppercase(),
        });
    }
    words.join(" ")
}

/// The refusals of a sheet whose lines can be read.
fn tell_tree(sheet: &[u8], refusal: Refusal, line: Option<usize>) -> Told {
    let at = |span: Span| {
        format!("in what stands at bytes {} to {} of the statement's text", span.start, span.end)
    };
    let place =
        line.and_then(|line| explain::due_at(sheet, line)).map_or(String::new(), |it| place(&it));
    let column = |number: usize| {
        let text = line.map_or(&[][..], |line| self::line(sheet, line));
        text.split(|&byte| byte == b'\t').nth(number).unwrap_or_default()
    };
    let (what, due, hint) = match refusal {
        Refusal::WriteClause { .. } => (
            "a clause that writes".to_string(),
            format!("a clause that reads{place}"),
            "only clauses that read are lowered; writes have to go another way",
        ),
        Refusal::Unresolved { span, .. } => (
            format!("the name `{}` was not resolved, {}", shown(column(1)), at(span)),
            format!("a variable, `var ID`{place}"),
            "the statement may use a variable that no clause before it binds",
        ),
        Refusal::Undesugared { span, kind, .. } => (
            format!("{kind:?} was not desugared, {}", at(span)),
            format!("an expression that is written out{place}"),
            "the statement has to be desugared before its sheet is made",
        ),
        Refusal::EmptyPart { span, .. } if column(3) == b"0" => (
            format!("a part with no elements, {}", at(span)),
            "a part with at least one element, the first a `node`".to_string(),
            "the part's last field counts its elements",
        ),
        Refusal::EmptyPart { span, .. } => (
            format!("a part that begins with a relationship, {}", at(span)),
            "a part whose first element is a `node`".to_string(),
            "an unnamed node, `node - 0 0 START END`, may be missing",
        ),
        Refusal::LongSheet => {
            let hint = "the search may have to be written as several smaller ones";
            return Told {
                what: refusal.to_string(),
                hints: vec![hint.to_string()],
                ..Told::default()
            };
        }
        other => return Told { what: other.to_string(), ..Told::default() },
    };
    Told { what, line, marked: 0..usize::MAX, due: Some(due), hints: vec![hint.to_string()] }
}

/// A line of a sheet without its line feed; behind the last one there is none.
pub fn line(sheet: &[u8], number: usize) -> &[u8] {
    sheet.split(|&byte| byte == b'\n').nth(number - 1).unwrap_or_default()
}

/// The line's text, and a mark under these columns.
fn quote(sheet: &[u8], number: usize, marked: Range<usize>) -> String {
    let lines = sheet.split(|&byte| byte == b'\n').count() - usize::from(sheet.ends_with(b"\n"));
    if sheet.is_empty() || number > lines {
        return format!("{number:5} | (the sheet has ended)\n");
    }
    let (mut text, mut marks) = (String::new(), String::new());
    for (place, column) in line(sheet, number).split(|&byte| byte == b'\t').enumerate() {
        if place > 0 {
            text.push('\t');
            marks.push('\t');
        }
        if place == COLUMNS {
            text += "...";
            break;
        }
        let column = cut(shown(column));
        let mark = if marked.contains(&place) { '^' } else { ' ' };
        marks.extend(column.chars().map(|_| mark));
        // A column with nothing in it is marked too.
        if marked.contains(&place) && column.is_empty() {
            marks.push('^');
        }
        text += &column;
    }
    let marks = marks.trim_end();
    let below = if marks.is_empty() { String::new() } else { format!("      | {marks}\n") };
    format!("{number:5} | {text}\n{below}")
}

fn cut(text: String) -> String {
    if text.chars().count() <= LETTERS {
        return text;
    }
    text.chars().take(LETTERS).chain("...".chars()).collect()
}

/// Bytes as text in which no control character is left.
fn shown(bytes: &[u8]) -> String {
    let mut text = String::new();
    for chunk in bytes.utf8_chunks() {
        for letter in chunk.valid().chars() {
            match letter {
                '\u{feff}' => text += "\\u{feff}",
                letter if letter.is_control() => text.extend(letter.escape_default()),
                letter => text.push(letter),
            }
        }
        for byte in chunk.invalid() {
            let _ = write!(text, "\\x{byte:02x}");
        }
    }
    text
}
