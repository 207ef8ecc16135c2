//! A small stand-in for the crate `cyrs_syntax`, written for this comparison.
//! Only the spans do something; nothing here parses.

#[derive(Debug, Clone, Copy, PartialEq, Eq, PartialOrd, Ord, Hash)]
pub struct TextSize(u32);

impl From<u32> for TextSize {
    fn from(value: u32) -> Self {
        TextSize(value)
    }
}

impl From<TextSize> for u32 {
    fn from(value: TextSize) -> Self {
        value.0
    }
}

#[derive(Debug, Clone, Copy, PartialEq, Eq, Hash)]
pub struct TextRange {
    start: TextSize,
    end: TextSize,
}

impl TextRange {
    pub fn new(start: TextSize, end: TextSize) -> Self {
        assert!(start <= end, "a span must not end before it starts");
        TextRange { start, end }
    }

    pub fn start(self) -> TextSize {
        self.start
    }

    pub fn end(self) -> TextSize {
        self.end
    }

    pub fn contains_range(self, other: TextRange) -> bool {
        self.start <= other.start && other.end <= self.end
    }
}

#[derive(Debug, Clone)]
pub struct SyntaxNode;

impl SyntaxNode {
    pub fn text_range(&self) -> TextRange {
        unimplemented!("no syntax tree in this comparison")
    }
}

#[derive(Debug, Clone)]
pub struct SyntaxError;

#[derive(Debug, Clone)]
pub struct Parse;

impl Parse {
    pub fn errors(&self) -> &[SyntaxError] {
        &[]
    }
}

pub fn parse(_text: &str) -> Parse {
    unimplemented!("no parser in this comparison")
}
