//! Input and output. The standard streams have no buffer: one call is one call of the system.
use crate::alloc::Global;
use crate::vec::Vec;
use ::std::fmt::Arguments;
use ::std::fs::File;
pub use ::std::io::*;
use ::std::mem::ManuallyDrop;
use ::std::os::fd::FromRawFd;

/// A standard stream, which stays open.
#[derive(Debug)]
pub struct Stream(ManuallyDrop<File>);
/// The stream of a number: 0 is input, 1 output, 2 errors.
pub fn stream(number: i32) -> Stream {
    // SAFETY: it is not closed here, and calls of one that is closed fail.
    Stream(ManuallyDrop::new(unsafe { File::from_raw_fd(number) }))
}
impl Stream {
    pub fn is_terminal(&self) -> bool {
        self.0.is_terminal()
    }
}
impl Read for Stream {
    fn read(&mut self, into: &mut [u8]) -> Result<usize> {
        self.0.read(into)
    }
}
impl Write for Stream {
    fn write(&mut self, bytes: &[u8]) -> Result<usize> {
        self.0.write(bytes)
    }
    fn flush(&mut self) -> Result<()> {
        Ok(())
    }
}

rights! {
    /// Leave to write to standard output.
    Print
    /// Leave to write to standard error.
    Eprint
}
/// Leave to read standard input.
#[doc(hidden)]
pub trait Input {
    fn reader(&self) -> Stream {
        stream(0)
    }
}
impl<T: ?Sized> Input for T {}
/// A writer to what prints.
pub fn writer<P: Print>(_: &P) -> Stream {
    stream(1)
}
/// Writes a text to the stream of a number, in one call if it is short.
pub fn tell<R>(_: &R, number: i32, what: Arguments<'_>) -> Result<()> {
    let mut room = [0; 1024];
    let mut left = &mut room[..];
    if left.write_fmt(what).is_err() {
        return stream(number).write_fmt(what);
    }
    let filled = 1024 - left.len();
    stream(number).write_all(&room[..filled])
}
/// The same, with the end of a line.
pub fn tell_line<R>(rt: &R, number: i32, what: Arguments<'_>) -> Result<()> {
    tell(rt, number, format_args!("{what}\n"))
}

/// A reader with a buffer, whose memory may be refused.
pub struct BufReader<R> {
    reader: R,
    room: Vec<u8>,
    from: usize,
    to: usize,
}
impl<R: Read> BufReader<R> {
    pub fn new(alloc: Global, reader: R) -> Result<BufReader<R>> {
        BufReader::with_capacity(alloc, 8192, reader)
    }
    pub fn with_capacity(alloc: Global, room: usize, reader: R) -> Result<BufReader<R>> {
        Ok(BufReader { reader, room: Vec::filled(alloc, 0, room)?, from: 0, to: 0 })
    }
}
impl<R: Read> BufRead for BufReader<R> {
    fn fill_buf(&mut self) -> Result<&[u8]> {
        if self.from == self.to {
            (self.from, self.to) = (0, 0);
            self.to = self.reader.read(&mut self.room)?;
        }
        Ok(&self.room[self.from..self.to])
    }
    fn consume(&mut self, count: usize) {
        self.from = (self.from + count).min(self.to);
    }
}
impl<R: Read> Read for BufReader<R> {
    fn read(&mut self, into: &mut [u8]) -> Result<usize> {
        let count = self.fill_buf()?.read(into)?;
        self.consume(count);
        Ok(count)
    }
}
impl Write for Vec<u8> {
    fn write(&mut self, bytes: &[u8]) -> Result<usize> {
        self.extend_from_slice(bytes)?;
        Ok(bytes.len())
    }
    fn flush(&mut self) -> Result<()> {
        Ok(())
    }
}
