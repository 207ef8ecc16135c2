//! Sheets from files and from standard input.

use super::standard;
use dresserhawk::grammar::MOST_BYTES;
use std::ffi::OsStr;
use std::fs::File;
use std::io::Read;

/// What a file is called in messages.
pub fn name(file: &OsStr) -> String {
    if file == "-" { "<stdin>".to_string() } else { file.to_string_lossy().into_owned() }
}

/// A file's bytes; of a longer one as many as show that it is too long, so that
/// an input without end is refused too.
pub fn read(file: &OsStr) -> std::io::Result<Vec<u8>> {
    let most = MOST_BYTES as u64 + 1;
    let mut sheet = Vec::new();
    if file == "-" {
        standard::input()?.take(most).read_to_end(&mut sheet)?;
    } else {
        File::open(file)?.take(most).read_to_end(&mut sheet)?;
    }
    Ok(sheet)
}
