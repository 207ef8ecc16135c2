//! A line that says which of several files is at hand, on a terminal only.

use super::say;
use std::io::IsTerminal;

/// Longest name that is shown, so that the line fits a terminal.
const NAME: usize = 60;

pub struct Progress {
    shown: bool,
    done: usize,
    total: usize,
}

impl Progress {
    pub fn new(total: usize) -> Self {
        Progress { shown: total > 1 && std::io::stderr().is_terminal(), done: 0, total }
    }

    /// The next file is at hand.
    pub fn next(&mut self, name: &str) {
        self.done += 1;
        if self.shown {
            say(&line(self.done, self.total, name));
        }
    }

    /// Takes the line away, before something else is written.
    pub fn clear(&self) {
        if self.shown {
            say(CLEAR);
        }
    }
}

/// Back to the start of the line, and nothing on it.
const CLEAR: &str = "\r\x1b[K";

fn line(done: usize, total: usize, name: &str) -> String {
    let plain = |letter: char| if letter.is_control() { '?' } else { letter };
    let name: String = name.chars().map(plain).take(NAME).collect();
    format!("{CLEAR}[{done}/{total}] {name}")
}

#[cfg(test)]
mod tests {
    use super::*;

    #[test]
    fn a_line_fits_and_holds_no_control() {
        assert_eq!(line(2, 10, "a.sheet"), "\r\x1b[K[2/10] a.sheet");
        assert_eq!(line(1, 2, "a\x1bb"), "\r\x1b[K[1/2] a?b");
        assert_eq!(line(1, 2, &"x".repeat(500)).len(), CLEAR.len() + "[1/2] ".len() + NAME);
    }
}
