//! What the matter with a bad line may be. A hint is a guess, and is marked as one.

use dresserhawk::explain::{Fault, Matter, fits};
use dresserhawk::grammar::record;

const BOM: &[u8] = b"\xef\xbb\xbf";

/// Words that a Cypher text begins with.
const CYPHER: [&str; 12] = [
    "MATCH", "OPTIONAL", "RETURN", "WITH", "UNWIND", "CALL", "WHERE", "CREATE", "MERGE", "DELETE",
    "SET", "REMOVE",
];

/// Guesses about a line, `text`, of a sheet.
pub fn hints(sheet: &[u8], text: &[u8], fault: &Fault) -> Vec<String> {
    let mut hints = of_file(sheet, fault);
    if hints.is_empty() {
        hints.extend(of_line(sheet, text, fault));
    }
    hints
}

/// Guesses about what the file is.
fn of_file(sheet: &[u8], fault: &Fault) -> Vec<String> {
    let mut hints = Vec::new();
    let mut hint = |text: &str| hints.push(text.to_string());
    if fault.line > 1 {
        return hints;
    }
    let start = sheet.strip_prefix(BOM).unwrap_or(sheet);
    if sheet.is_empty() {
        hint("the input is empty; the least sheet is one line, `stmt`, `0`, `0`, parted by tabs");
    } else if sheet.starts_with(b"\xff\xfe") || sheet.starts_with(b"\xfe\xff") {
        hint("the file begins like UTF-16; a sheet has one byte for each ASCII character");
    } else if is_cypher(start) {
        hint(
            "this looks like Cypher text; a statement sheet is due, which docs/FORMAT.md describes",
        );
    } else if start.starts_with(b"plan\t") {
        hint("this looks like a plan sheet; a statement sheet is due");
    } else if start.len() < sheet.len() {
        hint("the file begins with a byte order mark (BOM), which no sheet has");
    }
    hints
}

/// Whether the first word is one that Cypher begins with, and not a record.
fn is_cypher(sheet: &[u8]) -> bool {
    let sheet = sheet.trim_ascii_start();
    let end = sheet.iter().position(|byte| !byte.is_ascii_alphabetic()).unwrap_or(sheet.len());
    let word = String::from_utf8_lossy(&sheet[..end]).to_ascii_uppercase();
    CYPHER.contains(&&*word) && sheet.get(end) != Some(&b'\t')
}

/// Guesses about the line.
fn of_line(sheet: &[u8], text: &[u8], fault: &Fault) -> Vec<String> {
    let mut hints = Vec::new();
    let mut hint = |text: String| hints.push(text);
    let plain = text.strip_suffix(b"\r").unwrap_or(text);
    if text.contains(&b'\r') && fault.matter == Matter::NoLineFeed {
        hint("the lines end in CR; a sheet's lines end in a line feed".to_string());
    } else if plain.len() < text.len() {
        hint("the line ends in CR LF; a sheet's lines end in a line feed alone".to_string());
    }
    if spaces_for_tabs(fault, plain) {
        hint("the line has spaces where tabs are due between the fields".to_string());
    }
    match fault.matter {
        Matter::NoLineFeed if fault.due.is_some_and(|due| fits(due.sort, plain).is_ok()) => {
            hint("the last line feed is missing; there is one behind every line".to_string());
        }
        Matter::Missing => hint(match fault.due.and_then(|due| due.parent) {
            Some(parent) => {
                let (line, keyword) = (parent.line, parent.record.keyword);
                format!(
                    "the sheet may be cut off, or a count in line {line}, `{keyword}`, too great"
                )
            }
            None => "the sheet may be cut off".to_string(),
        }),
        Matter::NothingDue if text.is_empty() => hint("a sheet has no empty line".to_string()),
        Matter::NothingDue => {
            hint("two sheets may stand in one file, or a count above be too small".to_string());
        }
        Matter::NotDue(_) => {
            hint("a count in a line above may be too small or too great".to_string())
        }
        Matter::Columns { .. } if plain.ends_with(b"\t") => {
            hint("a tab stands at the end of the line".to_string());
        }
        Matter::NoRecord if lower_case(plain) => {
            hint("the first word of a record is in lower case".to_string());
        }
        Matter::NoRecord if text.is_empty() => hint("a sheet has no empty line".to_string()),
        _ => {}
    }
    // A mark of one file's end that stands in the middle of another.
    if fault.line > 1 && text.starts_with(BOM) && !sheet.starts_with(BOM) {
        hint("the line begins with a byte order mark (BOM), which no sheet has".to_string());
    }
    hints
}

/// Whether the line would do with tabs for its spaces, or begins so.
fn spaces_for_tabs(fault: &Fault, line: &[u8]) -> bool {
    let Some(due) = fault.due else { return false };
    let words: Vec<&[u8]> =
        line.split(|byte| b" \t".contains(byte)).filter(|word| !word.is_empty()).collect();
    let tabbed = words.join(&b'\t');
    if !line.contains(&b' ') || words.is_empty() {
        return false;
    }
    let begins = !line.contains(&b'\t') && record(words[0]).is_some_and(|it| it.sort == due.sort);
    fits(due.sort, &tabbed).is_ok() && fits(due.sort, line).is_err() || begins
}

/// Whether the first word would be a record's in lower case.
fn lower_case(line: &[u8]) -> bool {
    let word = line.split(|byte| b" \t".contains(byte)).next().unwrap_or_default();
    word.iter().any(u8::is_ascii_uppercase) && record(&word.to_ascii_lowercase()).is_some()
}
