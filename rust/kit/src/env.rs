//! The words that a program is started with.
use crate::alloc::{AllocError, Global};
use crate::string::String;
use crate::sys::words;
use crate::vec::Vec;
use ::std::{io, str};

rights! {
    /// Leave to know them.
    Env
}
/// The words, each of which is a text; the first is the program's name.
pub struct Args(());
pub fn args<R: Env>(_: &R) -> io::Result<Args> {
    match words().all(|word| str::from_utf8(word).is_ok()) {
        true => Ok(Args(())),
        false => Err(io::ErrorKind::InvalidData.into()),
    }
}
impl Args {
    pub fn collect_in(self, alloc: Global) -> Result<Vec<String>, AllocError> {
        let mut all = Vec::with_capacity(alloc, words().count())?;
        for word in words() {
            all.push_reserved(String::from_str(alloc, str::from_utf8(word).unwrap_or(""))?);
        }
        Ok(all)
    }
}
