//! What Rattle's methods are called here where Rust has one of that name with other parameters.
use crate::alloc::{AllocError, Global};
use crate::string::String;
use crate::vec::Vec;
use ::std::io;

/// `expect` and `expect_err` of a test, which are passed the runtime. What is not expected need not be `Debug`.
pub trait ExpectRt: Sized {
    type Value;
    type Fault;
    fn outcome(self) -> Result<Self::Value, Self::Fault>;
    #[track_caller]
    fn expect_rt<R>(self, _: R, why: &str) -> Self::Value {
        self.outcome().ok().expect(why)
    }
    #[track_caller]
    fn expect_err_rt<R>(self, _: R, why: &str) -> Self::Fault {
        self.outcome().err().expect(why)
    }
}
impl<T> ExpectRt for Option<T> {
    type Value = T;
    type Fault = ();
    fn outcome(self) -> Result<T, ()> {
        self.ok_or(())
    }
}
impl<T, E> ExpectRt for Result<T, E> {
    type Value = T;
    type Fault = E;
    fn outcome(self) -> Result<T, E> {
        self
    }
}

/// Copies of what is borrowed.
pub trait ToOwnedIn {
    type Own;
    fn to_owned_in(&self, alloc: Global) -> Result<Self::Own, AllocError>;
}
impl ToOwnedIn for str {
    type Own = String;
    fn to_owned_in(&self, alloc: Global) -> Result<String, AllocError> {
        String::from_str(alloc, self)
    }
}
impl<T: Copy> ToOwnedIn for [T] {
    type Own = Vec<T>;
    fn to_owned_in(&self, alloc: Global) -> Result<Vec<T>, AllocError> {
        Vec::from_slice(alloc, self)
    }
}
/// What an iterator gives.
pub trait CollectIn: Iterator + Sized {
    fn collect_in(self, alloc: Global) -> Result<Vec<Self::Item>, AllocError> {
        Vec::collected(alloc, self)
    }
}
impl<I: Iterator> CollectIn for I {}

/// Reading into memory that may be refused.
pub trait ReadUntil: io::BufRead {
    /// Adds what is read up to a byte, or to the end.
    fn read_until_in(&mut self, end: u8, all: &mut Vec<u8>) -> io::Result<usize> {
        let mut count = 0;
        loop {
            let held = match self.fill_buf() {
                Err(why) if why.kind() == io::ErrorKind::Interrupted => continue,
                held => held?,
            };
            let found = held.iter().position(|byte| *byte == end);
            let used = found.map_or(held.len(), |at| at + 1);
            all.extend_from_slice(&held[..used])?;
            self.consume(used);
            count += used;
            if found.is_some() || used == 0 {
                return Ok(count);
            }
        }
    }
    /// Its lines, without their ends.
    fn lines_in(self, alloc: Global) -> LinesIn<Self>
    where
        Self: Sized,
    {
        LinesIn { reader: self, alloc }
    }
}
impl<R: io::BufRead + ?Sized> ReadUntil for R {}

pub struct LinesIn<R> {
    reader: R,
    alloc: Global,
}
impl<R: io::BufRead> Iterator for LinesIn<R> {
    type Item = io::Result<String>;
    fn next(&mut self) -> Option<io::Result<String>> {
        let mut line = Vec::new(self.alloc);
        match self.reader.read_until_in(b'\n', &mut line) {
            Ok(0) => None,
            Ok(_) => {
                let line = line.strip_suffix(b"\n").unwrap_or(&line);
                Some(text_of(self.alloc, line.strip_suffix(b"\r").unwrap_or(line)))
            }
            Err(why) => Some(Err(why)),
        }
    }
}

/// Reading all of a text into memory that may be refused.
pub trait ReadToString: io::Read {
    /// Adds what is left, if it is text.
    fn read_to_string_in(&mut self, all: &mut String) -> io::Result<usize> {
        let (mut bytes, mut part) = (Vec::new(Global), [0; 4096]);
        loop {
            match self.read(&mut part) {
                Ok(0) => break,
                Ok(count) => bytes.extend_from_slice(&part[..count])?,
                Err(why) if why.kind() == io::ErrorKind::Interrupted => (),
                Err(why) => return Err(why),
            }
        }
        all.push_str(&text_of(Global, &bytes)?)?;
        Ok(bytes.len())
    }
}
impl<R: io::Read + ?Sized> ReadToString for R {}

fn text_of(alloc: Global, bytes: &[u8]) -> io::Result<String> {
    let text = ::std::str::from_utf8(bytes).map_err(|_| io::ErrorKind::InvalidData)?;
    Ok(String::from_str(alloc, text)?)
}
