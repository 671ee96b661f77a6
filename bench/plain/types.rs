//! Requests, entries, replies, and what a worker keeps.
use std::hash::{Hash, Hasher};

use crate::Options;

#[derive(Clone, Copy, PartialEq, Eq, PartialOrd, Ord, Default)]
pub struct Id {
    pub worker: u32,
    pub serial: u32,
}

/// A name's place in the names of all items.
#[derive(Clone, Copy)]
pub struct Name {
    pub at: u32,
    pub len: u8,
}

#[derive(Clone, Copy)]
pub struct Facts {
    pub seller: u32,
    pub category: u32,
    pub name: Name,
    pub quantity: u32,
    pub start: u64,
    pub closes: u64,
}

#[derive(Clone, Copy)]
pub struct NewItem {
    pub facts: Facts,
    pub time: u64,
}

/// A request takes 32 bytes: a new item is its place among all new items.
#[derive(Clone, Copy)]
pub enum Request {
    Item(u32),
    Bid {
        bidder: u32,
        item: Id,
        amount: u64,
        time: u64,
    },
    Comment {
        author: u32,
        about: u32,
        item: Id,
        stars: i8,
    },
    Buy {
        buyer: u32,
        item: Id,
        quantity: u32,
        time: u64,
    },
    ViewItem(Id),
    ViewBids(Id),
    ViewCategory(u32),
    ViewUser(u32),
}

impl Request {
    /// So many new items more come before its own.
    pub fn move_item(&mut self, by: u32) {
        if let Request::Item(place) = self {
            *place += by;
        }
    }
}

/// The items that requests store, and their names.
#[derive(Default)]
pub struct NewItems {
    pub all: Vec<NewItem>,
    pub names: Vec<u8>,
}

impl NewItems {
    pub fn push(&mut self, facts: Facts, time: u64) -> Request {
        self.all.push(NewItem { facts, time });
        Request::Item(self.all.len() as u32 - 1)
    }

    /// The place of a name among all names, where it is added.
    pub fn name(&mut self, name: &[u8]) -> Option<Name> {
        let is_name =
            (1..=32).contains(&name.len()) && name.iter().all(|byte| matches!(byte, b' '..=b'~'));
        let at = self.names.len() as u32;
        is_name.then(|| {
            self.names.extend_from_slice(name);
            Name {
                at,
                len: name.len() as u8,
            }
        })
    }

    pub fn append(&mut self, mut later: NewItems) {
        let before = self.names.len() as u32;
        later
            .all
            .iter_mut()
            .for_each(|item| item.facts.name.at += before);
        self.names.append(&mut later.names);
        self.all.append(&mut later.all);
    }
}

/// What all workers are given: the options, and the items that requests store.
#[derive(Clone, Copy)]
pub struct Given<'a> {
    pub options: &'a Options,
    pub items: &'a [NewItem],
}

#[derive(Clone, Copy, PartialEq, Eq, PartialOrd, Ord, Default)]
pub struct BidEntry {
    pub amount: u64,
    pub time: u64,
    pub id: Id,
    pub bidder: u32,
}

#[derive(Clone, Copy, PartialEq, Eq, PartialOrd, Ord, Default)]
pub struct ItemEntry {
    pub time: u64,
    pub id: Id,
}

/// The ten greatest, the greatest first.
#[derive(Clone, Copy, Default)]
pub struct Top<E> {
    pub len: u8,
    pub entries: [E; 10],
}

impl<E: Copy + Ord + Default> Top<E> {
    pub fn shown(&self) -> &[E] {
        &self.entries[..usize::from(self.len)]
    }

    #[inline]
    pub fn insert(&mut self, entry: E) {
        let mut place = usize::from(self.len);
        if place == self.entries.len() {
            if entry <= self.entries[place - 1] {
                return;
            }
            place -= 1;
        } else {
            self.len += 1;
        }
        while place > 0 && self.entries[place - 1] < entry {
            self.entries[place] = self.entries[place - 1];
            place -= 1;
        }
        self.entries[place] = entry;
    }

    pub fn merge(&mut self, other: &Self) {
        other.shown().iter().for_each(|entry| self.insert(*entry));
    }
}

#[derive(Clone, Copy, Default)]
pub struct Bids {
    pub count: u64,
    pub top: Top<BidEntry>,
}

#[derive(Clone, Copy, Default)]
pub struct User {
    pub rating: i64,
    pub comments: u64,
}

pub struct Item {
    pub facts: Facts,
    pub left: u32,
    pub bids: Bids,
}

#[derive(Clone, Copy)]
pub struct ItemSeen {
    pub facts: Facts,
    pub left: u32,
    pub best: BidEntry,
    pub bids: u64,
}

#[derive(Clone, Copy, PartialEq, Eq)]
pub enum Refusal {
    NoSuchUser,
    NoSuchCategory,
    NoSuchItem,
    BelowStart,
    Closed,
    SoldOut,
    NotEnough,
}

/// A reply takes 8 bytes: a view's is a place in the worker's lists of what views showed.
#[derive(Clone, Copy)]
pub enum Reply {
    None,
    Item(u32),
    Bid(u32),
    Comment(u32),
    Bought(u32),
    Refused(Refusal),
    ItemSeen(u32),
    BidsSeen(u32, u8),
    CategorySeen(u32, u8),
    UserSeen(u32),
}

/// What a worker keeps, in lines of the cache of its own: how many items, bids, comments and
/// purchases it stored, its replies and what its views showed.
#[repr(align(128))]
pub struct Worker {
    pub number: u32,
    pub stored: [u32; 4],
    pub replies: Vec<Reply>,
    pub items: Vec<ItemSeen>,
    pub bids: Vec<BidEntry>,
    pub latest: Vec<ItemEntry>,
    pub users: Vec<User>,
    pub written: Vec<Object>,
}

impl Worker {
    pub fn new(number: u32) -> Worker {
        Worker {
            number,
            stored: [0; 4],
            replies: Vec::new(),
            items: Vec::new(),
            bids: Vec::new(),
            latest: Vec::new(),
            users: Vec::new(),
            written: Vec::new(),
        }
    }

    pub fn next_id(&self, kind: usize) -> Id {
        Id {
            worker: self.number,
            serial: self.stored[kind],
        }
    }

    pub fn count(&mut self, kind: usize) -> u32 {
        self.stored[kind] += 1;
        self.stored[kind] - 1
    }
}

/// What a store writes.
#[derive(Clone, Copy, PartialEq, Eq, PartialOrd, Ord)]
pub enum Object {
    Item(Id),
    User(u32),
    Category(u32),
}

impl Hash for Object {
    fn hash<H: Hasher>(&self, hasher: &mut H) {
        hasher.write_u64(self.key());
    }
}

impl Object {
    /// Objects that meet have different keys.
    #[inline]
    pub fn key(self) -> u64 {
        match self {
            Object::Item(id) => u64::from(id.worker) << 32 | u64::from(id.serial),
            Object::User(number) => 1 << 62 | u64::from(number),
            Object::Category(number) => 2 << 62 | u64::from(number),
        }
    }

    #[inline]
    pub fn shard(self, shards: u32) -> u32 {
        let sum = match self {
            Object::Item(id) => u64::from(id.worker) + u64::from(id.serial),
            Object::User(number) | Object::Category(number) => u64::from(number),
        };
        (sum % u64::from(shards)) as u32
    }
}
