//! A small stand-in for the crate `smol_str`, written for this comparison.
//! Texts of up to 22 bytes lie in the value itself, longer ones are shared,
//! so that cloning costs about what it costs with the real crate.

use std::sync::Arc;

#[derive(Clone)]
enum Held {
    Short { len: u8, bytes: [u8; 22] },
    Long(Arc<str>),
}

#[derive(Clone)]
pub struct SmolStr(Held);

impl SmolStr {
    pub fn new(text: impl AsRef<str>) -> Self {
        let text = text.as_ref();
        if text.len() <= 22 {
            let mut bytes = [0; 22];
            bytes[..text.len()].copy_from_slice(text.as_bytes());
            SmolStr(Held::Short { len: text.len() as u8, bytes })
        } else {
            SmolStr(Held::Long(Arc::from(text)))
        }
    }

    pub fn as_str(&self) -> &str {
        match &self.0 {
            // The bytes were copied whole from a `&str` of just this length.
            Held::Short { len, bytes } => unsafe {
                std::str::from_utf8_unchecked(&bytes[..*len as usize])
            },
            Held::Long(text) => text,
        }
    }
}

impl Default for SmolStr {
    fn default() -> Self {
        SmolStr::new("")
    }
}

impl std::ops::Deref for SmolStr {
    type Target = str;
    fn deref(&self) -> &str {
        self.as_str()
    }
}

impl PartialEq for SmolStr {
    fn eq(&self, other: &Self) -> bool {
        self.as_str() == other.as_str()
    }
}

impl Eq for SmolStr {}

impl std::hash::Hash for SmolStr {
    fn hash<H: std::hash::Hasher>(&self, state: &mut H) {
        self.as_str().hash(state);
    }
}

impl std::fmt::Debug for SmolStr {
    fn fmt(&self, f: &mut std::fmt::Formatter<'_>) -> std::fmt::Result {
        std::fmt::Debug::fmt(self.as_str(), f)
    }
}

impl std::fmt::Display for SmolStr {
    fn fmt(&self, f: &mut std::fmt::Formatter<'_>) -> std::fmt::Result {
        std::fmt::Display::fmt(self.as_str(), f)
    }
}
