//! `csv` as Rattle has it, over Rust's `csv-core`: Rust's `csv` cannot be refused memory.
//# csv-core
use csv_core::{ReadRecordResult, ReaderBuilder as Core};
use kit::alloc::{AllocError, Global};
use kit::vec::Vec;
use std::io::Read;

const ROOM: usize = 8192;

#[derive(Debug)]
pub enum ErrorKind {
    Io(std::io::Error),
    OutOfMemory,
}
#[derive(Debug)]
pub struct Error(ErrorKind);
impl Error {
    pub fn into_kind(self) -> ErrorKind {
        self.0
    }
}
impl From<AllocError> for Error {
    fn from(_: AllocError) -> Error {
        Error(ErrorKind::OutOfMemory)
    }
}

/// The fields of a record.
pub struct ByteRecord {
    bytes: Vec<u8>,
    ends: Vec<usize>,
    count: usize,
}
impl ByteRecord {
    pub fn new(alloc: Global) -> ByteRecord {
        ByteRecord { bytes: Vec::new(alloc), ends: Vec::new(alloc), count: 0 }
    }
    #[inline]
    pub fn len(&self) -> usize {
        self.count
    }
    #[inline]
    pub fn get(&self, at: usize) -> Option<&[u8]> {
        if at >= self.count {
            return None;
        }
        let from = if at == 0 { 0 } else { self.ends[at - 1] };
        self.bytes.get(from..self.ends[at])
    }
}

/// How a reader is made: without headers, of records of any lengths, as no exported crate reads otherwise.
pub struct ReaderBuilder;
impl ReaderBuilder {
    pub fn new() -> ReaderBuilder {
        ReaderBuilder
    }
    pub fn has_headers(self, has: bool) -> ReaderBuilder {
        assert!(!has);
        self
    }
    pub fn flexible(self, is: bool) -> ReaderBuilder {
        assert!(is);
        self
    }
    pub fn from_reader<R: Read>(&self, alloc: Global, reader: R) -> Reader<R> {
        let (core, room) = (Core::new().build(), Vec::new(alloc));
        Reader { core, reader, room, from: 0, to: 0, is_begun: false, has_failed: false }
    }
}

// Makes a list longer.
fn widen<T: Clone + Default>(list: &mut Vec<T>, least: usize) -> Result<(), AllocError> {
    let room = (2 * list.len()).max(least);
    list.reserve(room - list.len())?;
    list.resize(room, T::default());
    Ok(())
}

/// What reads records.
pub struct Reader<R> {
    core: csv_core::Reader,
    reader: R,
    room: Vec<u8>,
    from: usize,
    to: usize,
    is_begun: bool,
    has_failed: bool,
}
impl<R: Read> Reader<R> {
    fn fill(&mut self) -> Result<(), Error> {
        if self.room.is_empty() {
            widen(&mut self.room, ROOM)?;
        }
        (self.from, self.to) = (0, 0);
        // The first bytes are looked at together, for a byte order mark.
        let wanted = if self.is_begun { 1 } else { 3 };
        while self.to < wanted {
            match self.reader.read(&mut self.room[self.to..]) {
                Ok(0) => break,
                Ok(count) => self.to += count,
                Err(why) if why.kind() == std::io::ErrorKind::Interrupted => {}
                Err(why) => return Err(Error(ErrorKind::Io(why))),
            }
        }
        self.is_begun = true;
        Ok(())
    }
    fn read(&mut self, row: &mut ByteRecord) -> Result<bool, Error> {
        let (mut filled, mut ends) = (0, 0);
        loop {
            if self.from == self.to {
                self.fill()?;
            }
            let (into, into_ends) = (&mut row.bytes[filled..], &mut row.ends[ends..]);
            let input = &self.room[self.from..self.to];
            let (result, read, written, ended) = self.core.read_record(input, into, into_ends);
            self.from += read;
            filled += written;
            ends += ended;
            match result {
                ReadRecordResult::InputEmpty => {}
                ReadRecordResult::OutputFull => widen(&mut row.bytes, 256)?,
                ReadRecordResult::OutputEndsFull => widen(&mut row.ends, 16)?,
                ReadRecordResult::Record => {
                    row.count = ends;
                    return Ok(true);
                }
                ReadRecordResult::End => return Ok(false),
            }
        }
    }
    /// Reads the next record, and gives whether there was one.
    pub fn read_byte_record(&mut self, row: &mut ByteRecord) -> Result<bool, Error> {
        row.count = 0;
        if self.has_failed {
            return Ok(false);
        }
        let found = self.read(row);
        self.has_failed = found.is_err();
        found
    }
}
