//! Writes the replies.
use std::io::{self, BufWriter, Write};
use std::thread;

use crate::types::{Id, ItemSeen, Refusal, Reply, User, Worker};

/// The digits of 00 to 99.
const PAIRS: [[u8; 2]; 100] = {
    let (mut pairs, mut at) = ([[b'0'; 2]; 100], 0);
    while at < pairs.len() {
        pairs[at] = [b'0' + (at / 10) as u8, b'0' + (at % 10) as u8];
        at += 1;
    }
    pairs
};

/// More than the longest reply: ten bids, each of three numbers of 20 digits, an id and what is
/// between them.
const LONGEST: usize = 1024;

/// How many bytes are written at once.
const BLOCK: usize = 1 << 16;

/// A line under way.
struct Line {
    bytes: [u8; LONGEST],
    len: usize,
}

impl Line {
    #[inline(always)]
    fn word(&mut self, word: &[u8]) {
        self.bytes[self.len..self.len + word.len()].copy_from_slice(word);
        self.len += word.len();
    }

    #[inline(always)]
    fn number(&mut self, number: u64) {
        if number < 10 {
            self.bytes[self.len] = b'0' + number as u8;
            self.len += 1;
        } else {
            self.long_number(number);
        }
    }

    /// A number of two digits or more.
    fn long_number(&mut self, mut number: u64) {
        self.len += number.ilog10() as usize + 1;
        let mut at = self.len;
        while number >= 10 {
            at -= 2;
            self.bytes[at..at + 2].copy_from_slice(&PAIRS[(number % 100) as usize]);
            number /= 100;
        }
        if number > 0 {
            self.bytes[at - 1] = b'0' + number as u8;
        }
    }

    #[inline(always)]
    fn put(&mut self, label: &str, number: u64) {
        self.word(label.as_bytes());
        self.number(number);
    }

    #[inline(always)]
    fn put_id(&mut self, label: &str, id: Id) {
        self.put(label, u64::from(id.worker));
        self.put(".", u64::from(id.serial));
    }
}

fn put_item(line: &mut Line, seen: &ItemSeen, names: &[u8]) {
    let facts = &seen.facts;
    line.put("viewitem seller=", u64::from(facts.seller));
    line.put(" category=", u64::from(facts.category));
    line.put(" start=", facts.start);
    line.put(" closes=", facts.closes);
    if seen.bids > 0 {
        line.put(" highest=", seen.best.amount);
        line.put(" bidder=", u64::from(seen.best.bidder));
    } else {
        line.word(b" highest=- bidder=-");
    }
    line.put(" bids=", seen.bids);
    line.put(" left=", u64::from(seen.left));
    line.word(b" name=");
    let at = facts.name.at as usize;
    line.word(&names[at..at + usize::from(facts.name.len)]);
}

fn put_reply(line: &mut Line, me: &Worker, reply: Reply, names: &[u8]) {
    let own = |serial| Id {
        worker: me.number,
        serial,
    };
    match reply {
        Reply::None => unreachable!("each request has its reply"),
        Reply::Item(serial) => line.put_id("item ", own(serial)),
        Reply::Bid(serial) => line.put_id("bid ", own(serial)),
        Reply::Comment(serial) => line.put_id("comment ", own(serial)),
        Reply::Bought(serial) => line.put_id("buynow ", own(serial)),
        Reply::Refused(refusal) => line.word(refusal_words(refusal).as_bytes()),
        Reply::ItemSeen(place) => put_item(line, &me.items[place as usize], names),
        Reply::BidsSeen(from, count) => {
            line.word(b"bids");
            for entry in &me.bids[from as usize..][..usize::from(count)] {
                line.put(" ", entry.amount);
                line.put(":", entry.time);
                line.put(":", u64::from(entry.bidder));
                line.put_id(":", entry.id);
            }
        }
        Reply::CategorySeen(from, count) => {
            line.word(b"latest");
            for entry in &me.latest[from as usize..][..usize::from(count)] {
                line.put(" ", entry.time);
                line.put_id(":", entry.id);
            }
        }
        Reply::UserSeen(place) => {
            let User { rating, comments } = me.users[place as usize];
            let label = if rating < 0 {
                "user rating=-"
            } else {
                "user rating="
            };
            line.put(label, rating.unsigned_abs());
            line.put(" comments=", comments);
        }
    }
}

fn refusal_words(refusal: Refusal) -> &'static str {
    match refusal {
        Refusal::NoSuchUser => "refused 1 NoSuchUser",
        Refusal::NoSuchCategory => "refused 2 NoSuchCategory",
        Refusal::NoSuchItem => "refused 3 NoSuchItem",
        Refusal::BelowStart => "refused 4 BelowStart",
        Refusal::Closed => "refused 5 Closed",
        Refusal::SoldOut => "refused 6 SoldOut",
        Refusal::NotEnough => "refused 7 NotEnough",
    }
}

/// Writes the replies: a thread for each worker makes their text, this one that of the first, which
/// it writes meanwhile.
pub fn write_replies(workers: &[Worker], names: &[u8], output: &mut impl Write) -> io::Result<()> {
    let Some((first, others)) = workers.split_first() else {
        return Ok(());
    };
    thread::scope(|scope| {
        let later: Vec<_> = others
            .iter()
            .map(|me| scope.spawn(move || replies_text(me, names)))
            .collect();
        let mut blocks = BufWriter::with_capacity(BLOCK, &mut *output);
        put_replies(first, names, &mut blocks)?;
        blocks.flush()?;
        drop(blocks);
        for text in later {
            output.write_all(&text.join().unwrap())?;
        }
        Ok(())
    })
}

fn replies_text(me: &Worker, names: &[u8]) -> Vec<u8> {
    let mut text = Vec::with_capacity(me.replies.len() * 24 + me.items.len() * 80);
    put_replies(me, names, &mut text).expect("a list takes what is written");
    text
}

fn put_replies(me: &Worker, names: &[u8], to: &mut impl Write) -> io::Result<()> {
    let mut line = Line {
        bytes: [0; LONGEST],
        len: 0,
    };
    for (place, reply) in me.replies.iter().enumerate() {
        line.len = 0;
        line.put("", u64::from(me.number));
        line.put(",", place as u64);
        line.word(b",");
        put_reply(&mut line, me, *reply, names);
        line.word(b"\n");
        to.write_all(&line.bytes[..line.len])?;
    }
    Ok(())
}
