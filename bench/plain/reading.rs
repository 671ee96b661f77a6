//! Reads the input.
use std::io::{ErrorKind, Read};
use std::thread;

use crate::numbers::{digit, long_number, number, short_number};
use crate::stop;
use crate::types::{Facts, Id, NewItems, Request};

/// The fields of a record, which is a line. A field that stood in quotes is copied.
struct Fields<'a> {
    bytes: &'a [u8],
    at: usize,
    places: Vec<(usize, usize, bool)>,
    copied: Vec<u8>,
}

impl<'a> Fields<'a> {
    fn of(bytes: &'a [u8]) -> Fields<'a> {
        let mut fields = Fields {
            bytes,
            at: 0,
            places: Vec::with_capacity(9),
            copied: Vec::new(),
        };
        fields.find();
        fields
    }

    fn is_end(&self) -> bool {
        self.at >= self.bytes.len() || matches!(self.bytes[self.at], b'\n' | b'\r')
    }

    fn find(&mut self) {
        loop {
            if self.bytes.get(self.at) == Some(&b'"') {
                self.quoted();
            } else {
                let from = self.at;
                while !self.is_end() && self.bytes[self.at] != b',' {
                    self.at += 1;
                }
                self.places.push((from, self.at, false));
            }
            if self.is_end() {
                return;
            }
            self.at += 1;
        }
    }

    fn quoted(&mut self) {
        let from = self.copied.len();
        self.at += 1;
        while self.at < self.bytes.len() {
            let byte = self.bytes[self.at];
            self.at += 1;
            if byte == b'"' {
                if self.bytes.get(self.at) != Some(&b'"') {
                    break;
                }
                self.at += 1;
            }
            self.copied.push(byte);
        }
        self.places.push((from, self.copied.len(), true));
    }

    #[inline]
    fn field(&self, place: usize) -> &[u8] {
        let (from, end, copied) = self.places[place];
        if copied {
            &self.copied[from..end]
        } else {
            &self.bytes[from..end]
        }
    }

    fn number(&self, place: usize) -> Option<u64> {
        number(self.field(place))
    }

    fn small(&self, place: usize) -> Option<u32> {
        self.number(place)?.try_into().ok()
    }

    fn id(&self, place: usize) -> Option<Id> {
        let field = self.field(place);
        let point = field.iter().position(|byte| *byte == b'.')?;
        let part = |digits| number(digits)?.try_into().ok();
        Some(Id {
            worker: part(&field[..point])?,
            serial: part(&field[point + 1..])?,
        })
    }

    fn stars(&self, place: usize) -> Option<i8> {
        match self.field(place) {
            [digit @ b'0'..=b'5'] => Some((digit - b'0') as i8),
            [b'-', digit @ b'1'..=b'5'] => Some(-((digit - b'0') as i8)),
            _ => None,
        }
    }

    fn quantity(&self, place: usize) -> Option<u32> {
        some_quantity(self.small(place)?)
    }
}

/// The rows, the scripts and their items; whether a record came that is not read.
#[derive(Default)]
pub struct Input {
    pub rows: Vec<(u32, Request)>,
    pub scripts: Vec<Vec<Request>>,
    pub items: NewItems,
    records: u64,
    is_faulty: bool,
}

impl Input {
    /// With room for what so many bytes are likely to have.
    fn new(workers: usize, bytes: usize) -> Input {
        let each = bytes / SHORT_LINE / workers;
        Input {
            scripts: (0..workers).map(|_| Vec::with_capacity(each)).collect(),
            ..Input::default()
        }
    }

    /// Takes whole lines: a plain one where it lies, in one pass; any other field by field.
    fn take_lines(&mut self, mut text: &[u8]) {
        while !text.is_empty() && !self.is_faulty {
            let mut line = Line { rest: text };
            let found = line.record(&mut self.items);
            if found.is_some_and(|(worker, is_row, request)| self.add(worker, is_row, request)) {
                text = line.rest;
                continue;
            }
            let feed = text.iter().position(|byte| *byte == b'\n');
            let (record, rest) = text.split_at(feed.map_or(text.len(), |at| at + 1));
            self.take_fields(record);
            text = rest;
        }
    }

    fn take_fields(&mut self, record: &[u8]) {
        if record.iter().all(|byte| matches!(byte, b'\n' | b'\r')) {
            return;
        }
        let found = request_of(&Fields::of(record), &mut self.items);
        self.is_faulty =
            !found.is_some_and(|(worker, is_row, request)| self.add(worker, is_row, request));
    }

    /// Whether there is such a worker.
    #[inline]
    fn add(&mut self, worker: u32, is_row: bool, request: Request) -> bool {
        let Some(script) = self.scripts.get_mut(worker as usize) else {
            return false;
        };
        self.records += 1;
        if is_row {
            self.rows.push((worker, request));
        } else {
            script.push(request);
        }
        true
    }

    /// Takes whole lines by a thread a piece; the first piece by this one.
    fn take_pieces(&mut self, text: &[u8]) {
        let workers = self.scripts.len();
        let mut pieces = pieces_of(text, workers).into_iter();
        let first = pieces.next().unwrap_or_default();
        thread::scope(|scope| {
            let others: Vec<_> = pieces
                .map(|piece| {
                    scope.spawn(move || {
                        let mut own = Input::new(workers, piece.len());
                        own.take_lines(piece);
                        own
                    })
                })
                .collect();
            self.take_lines(first);
            others
                .into_iter()
                .for_each(|other| self.append(other.join().unwrap()));
        });
        if self.is_faulty {
            stop(2, &format!("record {}: not read", self.records + 1));
        }
    }

    /// Takes what a later piece had, unless a record before it was not read.
    fn append(&mut self, mut later: Input) {
        if self.is_faulty {
            return;
        }
        let before = self.items.all.len() as u32;
        if !later.items.all.is_empty() {
            let rows = later.rows.iter_mut().map(|(_, request)| request);
            let requests = rows.chain(later.scripts.iter_mut().flatten());
            requests.for_each(|request| request.move_item(before));
        }
        self.items.append(later.items);
        self.rows.append(&mut later.rows);
        for (script, more) in self.scripts.iter_mut().zip(&mut later.scripts) {
            script.append(more);
        }
        self.records += later.records;
        self.is_faulty = later.is_faulty;
    }
}

/// How many bytes are asked for at once for each worker, and the fewest that are worth a thread.
const READ: usize = 1 << 18;
const PIECE: usize = 1 << 17;

/// Few lines have fewer bytes.
const SHORT_LINE: usize = 20;

/// Whole lines in at most so many pieces of whole lines, about alike.
fn pieces_of(mut text: &[u8], most: usize) -> Vec<&[u8]> {
    let count = (text.len() / PIECE).clamp(1, most);
    let each = text.len() / count;
    let mut pieces = Vec::with_capacity(count);
    while pieces.len() + 1 < count && text.len() > each {
        let Some(feed) = text[each..].iter().position(|byte| *byte == b'\n') else {
            break;
        };
        let (piece, rest) = text.split_at(each + feed + 1);
        pieces.push(piece);
        text = rest;
    }
    pieces.push(text);
    pieces
}

/// Takes the lines as they come, so that little is left to do when the last one does.
pub fn read(mut reader: impl Read, workers: u32) -> Input {
    let mut input = Input::new(workers as usize, 0);
    let (mut buffer, mut held) = (vec![0; READ * workers as usize], 0);
    loop {
        if held == buffer.len() {
            buffer.resize(2 * held, 0);
        }
        let count = match reader.read(&mut buffer[held..]) {
            Ok(0) => break,
            Ok(count) => count,
            Err(fault) if fault.kind() == ErrorKind::Interrupted => continue,
            Err(_) => stop(2, "input cannot be read"),
        };
        let end = held + count;
        let feed = buffer[held..end].iter().rposition(|byte| *byte == b'\n');
        let whole = feed.map_or(0, |at| held + at + 1);
        input.take_pieces(&buffer[..whole]);
        buffer.copy_within(whole..end, 0);
        held = end - whole;
    }
    input.take_pieces(&buffer[..held]);
    input
}

/// A line that is read where it lies, as long as it is plain: no quotes, no carriage return, no
/// fault.
struct Line<'a> {
    rest: &'a [u8],
}

impl Line<'_> {
    /// The worker, whether it is a row, and the request.
    #[inline(always)]
    fn record(&mut self, items: &mut NewItems) -> Option<(u32, bool, Request)> {
        let worker = self.small(b',')?;
        let is_row = self.word(b"+");
        let request = if self.word(b"bid,") {
            Request::Bid {
                bidder: self.small(b',')?,
                item: self.id(b',')?,
                amount: self.number(b',')?,
                time: self.number(b'\n')?,
            }
        } else if self.word(b"view") {
            self.view()?
        } else if self.word(b"item,") {
            self.item(items)?
        } else if self.word(b"comment,") {
            Request::Comment {
                author: self.small(b',')?,
                about: self.small(b',')?,
                item: self.id(b',')?,
                stars: self.stars()?,
            }
        } else if self.word(b"buynow,") {
            Request::Buy {
                buyer: self.small(b',')?,
                item: self.id(b',')?,
                quantity: some_quantity(self.small(b',')?)?,
                time: self.number(b'\n')?,
            }
        } else {
            return None;
        };
        Some((worker, is_row, request))
    }

    #[inline(always)]
    fn view(&mut self) -> Option<Request> {
        Some(if self.word(b"item,") {
            Request::ViewItem(self.id(b'\n')?)
        } else if self.word(b"bids,") {
            Request::ViewBids(self.id(b'\n')?)
        } else if self.word(b"category,") {
            Request::ViewCategory(self.small(b'\n')?)
        } else if self.word(b"user,") {
            Request::ViewUser(self.small(b'\n')?)
        } else {
            return None;
        })
    }

    #[inline(always)]
    fn item(&mut self, items: &mut NewItems) -> Option<Request> {
        let (seller, category) = (self.small(b',')?, self.small(b',')?);
        let end = if self.word(b"\"") { b'"' } else { b',' };
        let (name, rest) = self
            .rest
            .split_at(self.rest.iter().position(|byte| *byte == end)?);
        self.rest = &rest[1..];
        if end == b'"' && !self.word(b",") {
            return None;
        }
        let (start, closes) = (self.number(b',')?, self.number(b',')?);
        let (time, end) = self.digits()?;
        let quantity = match end {
            b'\n' => 1,
            b',' => some_quantity(self.small(b'\n')?)?,
            _ => return None,
        };
        let facts = Facts {
            seller,
            category,
            name: items.name(name)?,
            quantity,
            start,
            closes,
        };
        Some(items.push(facts, time))
    }

    #[inline(always)]
    fn word(&mut self, word: &[u8]) -> bool {
        let after = self.rest.strip_prefix(word);
        self.rest = after.unwrap_or(self.rest);
        after.is_some()
    }

    #[inline(always)]
    fn number(&mut self, end: u8) -> Option<u64> {
        let (value, byte) = self.digits()?;
        (byte == end).then_some(value)
    }

    /// A number, and the byte behind it.
    #[inline(always)]
    fn digits(&mut self) -> Option<(u64, u8)> {
        let (value, end, rest) = match digit(self.rest) {
            Some(found) => found,
            None => match short_number(self.rest) {
                Some(found) => found,
                None => long_number(self.rest)?,
            },
        };
        self.rest = rest;
        Some((value, end))
    }

    #[inline(always)]
    fn small(&mut self, end: u8) -> Option<u32> {
        self.number(end)?.try_into().ok()
    }

    #[inline(always)]
    fn id(&mut self, end: u8) -> Option<Id> {
        Some(Id {
            worker: self.small(b'.')?,
            serial: self.small(end)?,
        })
    }

    #[inline(always)]
    fn stars(&mut self) -> Option<i8> {
        let sign = if self.word(b"-") { -1 } else { 1 };
        let count = self.number(b'\n').filter(|count| *count <= 5)?;
        (sign > 0 || count > 0).then_some(sign * count as i8)
    }
}

/// The worker, whether it is a row, and the request.
fn request_of(fields: &Fields<'_>, items: &mut NewItems) -> Option<(u32, bool, Request)> {
    let count = fields.places.len();
    let word = if count > 1 {
        fields.field(1)
    } else {
        return None;
    };
    let kind = word.strip_prefix(b"+").unwrap_or(word);
    let request = match (kind, count) {
        (b"item", 8 | 9) => {
            let time = fields.number(7)?;
            let facts = facts_of(fields, items)?;
            items.push(facts, time)
        }
        (b"bid", 6) => Request::Bid {
            bidder: fields.small(2)?,
            item: fields.id(3)?,
            amount: fields.number(4)?,
            time: fields.number(5)?,
        },
        (b"comment", 6) => Request::Comment {
            author: fields.small(2)?,
            about: fields.small(3)?,
            item: fields.id(4)?,
            stars: fields.stars(5)?,
        },
        (b"buynow", 6) => Request::Buy {
            buyer: fields.small(2)?,
            item: fields.id(3)?,
            quantity: fields.quantity(4)?,
            time: fields.number(5)?,
        },
        (b"viewitem", 3) => Request::ViewItem(fields.id(2)?),
        (b"viewbids", 3) => Request::ViewBids(fields.id(2)?),
        (b"viewcategory", 3) => Request::ViewCategory(fields.small(2)?),
        (b"viewuser", 3) => Request::ViewUser(fields.small(2)?),
        _ => return None,
    };
    Some((fields.small(0)?, kind.len() < word.len(), request))
}

fn facts_of(fields: &Fields<'_>, items: &mut NewItems) -> Option<Facts> {
    Some(Facts {
        seller: fields.small(2)?,
        category: fields.small(3)?,
        name: items.name(fields.field(4))?,
        quantity: if fields.places.len() == 9 {
            fields.quantity(8)?
        } else {
            1
        },
        start: fields.number(5)?,
        closes: fields.number(6)?,
    })
}

fn some_quantity(quantity: u32) -> Option<u32> {
    (1..=1_000_000).contains(&quantity).then_some(quantity)
}
