//! Texts, whose memory may be refused.
use crate::alloc::{AllocError, Global};
use ::std::fmt;
pub use ::std::string::*;

/// A text.
#[derive(Default, PartialEq, Eq, PartialOrd, Ord, Hash)]
pub struct String(::std::string::String);

impl String {
    pub fn new(_: Global) -> String {
        String(::std::string::String::new())
    }
    pub fn from_str(alloc: Global, text: &str) -> Result<String, AllocError> {
        let mut own = String::new(alloc);
        own.push_str(text)?;
        Ok(own)
    }
    /// A text that is formatted; no memory is the one error.
    pub fn formatted(alloc: Global, what: fmt::Arguments<'_>) -> Result<String, AllocError> {
        let mut own = String::new(alloc);
        fmt::Write::write_fmt(&mut own, what).map_err(|_| AllocError)?;
        Ok(own)
    }
    pub fn push_str(&mut self, text: &str) -> Result<(), AllocError> {
        self.0.try_reserve(text.len())?;
        self.0.push_str(text);
        Ok(())
    }
    pub fn push(&mut self, c: char) -> Result<(), AllocError> {
        self.push_str(c.encode_utf8(&mut [0; 4]))
    }
    pub fn as_str(&self) -> &str {
        &self.0
    }
    pub fn clear(&mut self) {
        self.0.clear()
    }
}
impl fmt::Write for String {
    fn write_str(&mut self, text: &str) -> fmt::Result {
        self.push_str(text).map_err(|_| fmt::Error)
    }
}
impl ::std::ops::Deref for String {
    type Target = str;
    fn deref(&self) -> &str {
        &self.0
    }
}
impl fmt::Display for String {
    fn fmt(&self, f: &mut fmt::Formatter<'_>) -> fmt::Result {
        self.0.fmt(f)
    }
}
impl fmt::Debug for String {
    fn fmt(&self, f: &mut fmt::Formatter<'_>) -> fmt::Result {
        self.0.fmt(f)
    }
}
impl AsRef<str> for String {
    fn as_ref(&self) -> &str {
        &self.0
    }
}
impl PartialEq<str> for String {
    fn eq(&self, other: &str) -> bool {
        self.0 == other
    }
}
impl PartialEq<&str> for String {
    fn eq(&self, other: &&str) -> bool {
        self.0 == *other
    }
}
