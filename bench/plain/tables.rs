//! The records, in shards, and what each request does to them.
use std::sync::{Arc, Mutex};

use crate::types::{
    BidEntry, Bids, Facts, Given, Id, Item, ItemEntry, ItemSeen, Object, Refusal, Reply, Request,
    Top, User, Worker,
};
use crate::{stop, Options};

#[repr(align(128))]
pub struct Shard {
    pub items: Vec<Vec<Item>>,
    pub users: Vec<User>,
    pub categories: Vec<Top<ItemEntry>>,
}

impl Shard {
    pub fn new(place: usize, shards: usize, options: &Options) -> Shard {
        let own = |all: u32| (all as usize).saturating_sub(place).div_ceil(shards);
        Shard {
            items: (0..options.workers).map(|_| Vec::new()).collect(),
            users: vec![User::default(); own(options.users)],
            categories: vec![Top::default(); own(options.categories)],
        }
    }

    #[inline]
    pub fn item(&mut self, id: Id, shards: u32) -> Option<&mut Item> {
        self.items
            .get_mut(id.worker as usize)?
            .get_mut((id.serial / shards) as usize)
    }
}

/// How shards are reached. `with` gives both shards at once, the second only where they differ.
pub trait Store {
    fn shards(&self) -> u32;
    fn with<R>(
        &mut self,
        a: u32,
        b: u32,
        act: impl FnOnce(&mut Shard, Option<&mut Shard>) -> R,
    ) -> R;
}

/// One shard, for one thread.
pub struct Alone(pub Shard);

impl Store for Alone {
    fn shards(&self) -> u32 {
        1
    }

    #[inline]
    fn with<R>(
        &mut self,
        _: u32,
        _: u32,
        act: impl FnOnce(&mut Shard, Option<&mut Shard>) -> R,
    ) -> R {
        act(&mut self.0, None)
    }
}

#[derive(Clone)]
pub struct Locked(pub Arc<Vec<Mutex<Shard>>>);

impl Locked {
    pub fn new(shards: usize, options: &Options) -> Locked {
        Locked(Arc::new(
            (0..shards)
                .map(|place| Mutex::new(Shard::new(place, shards, options)))
                .collect(),
        ))
    }
}

impl Store for Locked {
    fn shards(&self) -> u32 {
        self.0.len() as u32
    }

    #[inline]
    fn with<R>(
        &mut self,
        a: u32,
        b: u32,
        act: impl FnOnce(&mut Shard, Option<&mut Shard>) -> R,
    ) -> R {
        let mut first = self.0[a.min(b) as usize].lock().unwrap();
        if a == b {
            return act(&mut first, None);
        }
        let mut second = self.0[a.max(b) as usize].lock().unwrap();
        if a < b {
            act(&mut first, Some(&mut second))
        } else {
            act(&mut second, Some(&mut first))
        }
    }
}

#[inline]
pub fn number_refusal(given: Given<'_>, request: &Request) -> Option<Refusal> {
    let Options {
        users, categories, ..
    } = *given.options;
    let known = match *request {
        Request::Item(place) => {
            let facts = &given.items[place as usize].facts;
            if facts.seller < users && facts.category >= categories {
                return Some(Refusal::NoSuchCategory);
            }
            facts.seller < users
        }
        Request::Bid { bidder, .. } => bidder < users,
        Request::Comment { author, about, .. } => author < users && about < users,
        Request::Buy { buyer, .. } => buyer < users,
        Request::ViewUser(user) => user < users,
        Request::ViewCategory(category) if category >= categories => {
            return Some(Refusal::NoSuchCategory);
        }
        Request::ViewCategory(_) | Request::ViewItem(_) | Request::ViewBids(_) => true,
    };
    (!known).then_some(Refusal::NoSuchUser)
}

#[inline]
pub fn bid_refusal(seen: Option<(&Facts, u32)>, amount: u64, time: u64) -> Option<Refusal> {
    match seen {
        None => Some(Refusal::NoSuchItem),
        Some((facts, _)) if amount < facts.start => Some(Refusal::BelowStart),
        Some((facts, _)) if time >= facts.closes => Some(Refusal::Closed),
        Some((_, 0)) => Some(Refusal::SoldOut),
        Some(_) => None,
    }
}

/// Performs a request on the shared records alone. TRACK: what accepted stores that may be split
/// write is noted.
#[inline]
pub fn perform<S: Store, const TRACK: bool>(
    me: &mut Worker,
    store: &mut S,
    given: Given<'_>,
    request: &Request,
) -> Reply {
    if let Some(refusal) = number_refusal(given, request) {
        return Reply::Refused(refusal);
    }
    match *request {
        Request::Item(place) => {
            let new = &given.items[place as usize];
            store_item(me, store, &new.facts, Some(new.time));
            if TRACK {
                me.written.push(Object::Category(new.facts.category));
            }
            Reply::Item(me.count(0))
        }
        Request::Bid {
            bidder,
            item,
            amount,
            time,
        } => {
            let entry = BidEntry {
                amount,
                time,
                id: me.next_id(1),
                bidder,
            };
            if let Some(refusal) = store_bid(store, item, entry) {
                return Reply::Refused(refusal);
            }
            if TRACK {
                me.written.push(Object::Item(item));
            }
            Reply::Bid(me.count(1))
        }
        Request::Comment {
            about, item, stars, ..
        } => {
            if !store_comment(store, about, item, stars) {
                return Reply::Refused(Refusal::NoSuchItem);
            }
            if TRACK {
                me.written.push(Object::User(about));
            }
            Reply::Comment(me.count(2))
        }
        Request::Buy {
            item,
            quantity,
            time,
            ..
        } => match buy(store, item, quantity, time) {
            Some(refusal) => Reply::Refused(refusal),
            None => Reply::Bought(me.count(3)),
        },
        Request::ViewItem(item) => view_item(me, store, item),
        Request::ViewBids(item) => view_bids(me, store, item),
        Request::ViewCategory(category) => view_category(me, store, category),
        Request::ViewUser(user) => view_user(me, store, user),
    }
}

/// Stores an item, and enters it in its category where a time is given.
pub fn store_item<S: Store>(me: &Worker, store: &mut S, facts: &Facts, entered: Option<u64>) {
    let (shards, id) = (store.shards(), me.next_id(0));
    let own = Object::Item(id).shard(shards);
    let other = if entered.is_some() {
        Object::Category(facts.category).shard(shards)
    } else {
        own
    };
    store.with(own, other, |own, other| {
        let item = Item {
            facts: *facts,
            left: facts.quantity,
            bids: Bids::default(),
        };
        own.items[id.worker as usize].push(item);
        if let Some(time) = entered {
            let place = (facts.category / shards) as usize;
            other.unwrap_or(own).categories[place].insert(ItemEntry { time, id });
        }
    });
}

#[inline]
pub fn store_bid<S: Store>(store: &mut S, item: Id, entry: BidEntry) -> Option<Refusal> {
    let shards = store.shards();
    let own = Object::Item(item).shard(shards);
    store.with(own, own, |shard, _| {
        let mut found = shard.item(item, shards);
        let seen = found.as_ref().map(|row| (&row.facts, row.left));
        let refusal = bid_refusal(seen, entry.amount, entry.time);
        if let (None, Some(row)) = (refusal, &mut found) {
            row.bids.count += 1;
            row.bids.top.insert(entry);
        }
        refusal
    })
}

pub fn rate(shard: &mut Shard, shards: u32, about: u32, stars: i8) {
    let user = &mut shard.users[(about / shards) as usize];
    user.rating += i64::from(stars);
    user.comments += 1;
}

/// Whether the item is there.
pub fn store_comment<S: Store>(store: &mut S, about: u32, item: Id, stars: i8) -> bool {
    let shards = store.shards();
    let (own, other) = (
        Object::Item(item).shard(shards),
        Object::User(about).shard(shards),
    );
    store.with(own, other, |own, other| {
        let known = own.item(item, shards).is_some();
        if known {
            rate(other.unwrap_or(own), shards, about, stars);
        }
        known
    })
}

pub fn buy<S: Store>(store: &mut S, item: Id, quantity: u32, time: u64) -> Option<Refusal> {
    let shards = store.shards();
    let own = Object::Item(item).shard(shards);
    store.with(own, own, |shard, _| match shard.item(item, shards) {
        None => Some(Refusal::NoSuchItem),
        Some(row) if time >= row.facts.closes => Some(Refusal::Closed),
        Some(row) if quantity > row.left => Some(Refusal::NotEnough),
        Some(row) => {
            row.left -= quantity;
            None
        }
    })
}

// A view copies what it shows under the lock, and keeps it behind it: lists grow while no shard is
// held.

pub fn view_item<S: Store>(me: &mut Worker, store: &mut S, item: Id) -> Reply {
    let shards = store.shards();
    let own = Object::Item(item).shard(shards);
    let seen = store.with(own, own, |shard, _| {
        shard.item(item, shards).map(|row| ItemSeen {
            facts: row.facts,
            left: row.left,
            best: row.bids.top.entries[0],
            bids: row.bids.count,
        })
    });
    match seen {
        None => Reply::Refused(Refusal::NoSuchItem),
        Some(seen) => {
            me.items.push(seen);
            Reply::ItemSeen(me.items.len() as u32 - 1)
        }
    }
}

pub fn view_bids<S: Store>(me: &mut Worker, store: &mut S, item: Id) -> Reply {
    let shards = store.shards();
    let own = Object::Item(item).shard(shards);
    let seen = store.with(own, own, |shard, _| {
        shard.item(item, shards).map(|row| row.bids.top)
    });
    match seen {
        None => Reply::Refused(Refusal::NoSuchItem),
        Some(top) => {
            me.bids.extend_from_slice(top.shown());
            Reply::BidsSeen(me.bids.len() as u32 - u32::from(top.len), top.len)
        }
    }
}

pub fn view_category<S: Store>(me: &mut Worker, store: &mut S, category: u32) -> Reply {
    let shards = store.shards();
    let own = Object::Category(category).shard(shards);
    let top = store.with(own, own, |shard, _| {
        shard.categories[(category / shards) as usize]
    });
    me.latest.extend_from_slice(top.shown());
    Reply::CategorySeen(me.latest.len() as u32 - u32::from(top.len), top.len)
}

pub fn view_user<S: Store>(me: &mut Worker, store: &mut S, user: u32) -> Reply {
    let shards = store.shards();
    let own = Object::User(user).shard(shards);
    let seen = store.with(own, own, |shard, _| shard.users[(user / shards) as usize]);
    me.users.push(seen);
    Reply::UserSeen(me.users.len() as u32 - 1)
}

/// The rows of the input, one after the other, before the scripts.
pub fn open<S: Store>(
    workers: &mut [Worker],
    store: &mut S,
    given: Given<'_>,
    rows: &[(u32, Request)],
) {
    for (place, (worker, request)) in rows.iter().enumerate() {
        if let Reply::Refused(_) =
            perform::<S, false>(&mut workers[*worker as usize], store, given, request)
        {
            stop(3, &format!("row {}: refused", place + 1));
        }
    }
}
