//! The ways to perform the scripts: one thread, a lock around everything, a lock per shard, phases.
use std::collections::HashMap;
use std::hash::{BuildHasherDefault, Hasher};

use crate::tables::Shard;
use crate::tables::{bid_refusal, number_refusal, perform, rate, store_item, Alone, Locked, Store};
use crate::types::{
    BidEntry, Bids, Facts, Given, Id, ItemEntry, NewItem, Object, Refusal, Reply, Request, Top,
    User, Worker,
};

/// What a worker did to a hot record in a split phase.
#[derive(Clone, Copy)]
enum Slice {
    Item(Bids),
    User(User),
    Category(Top<ItemEntry>),
}

impl Slice {
    fn new(object: Object) -> Slice {
        match object {
            Object::Item(_) => Slice::Item(Bids::default()),
            Object::User(_) => Slice::User(User::default()),
            Object::Category(_) => Slice::Category(Top::default()),
        }
    }
}

/// A hash that costs little.
#[derive(Default)]
struct Mixed(u64);

impl Hasher for Mixed {
    fn finish(&self) -> u64 {
        self.0
    }

    fn write(&mut self, _: &[u8]) {
        unreachable!("an object is hashed by its key")
    }

    fn write_u64(&mut self, key: u64) {
        self.0 = mixed(key);
    }
}

fn mixed(key: u64) -> u64 {
    key.wrapping_mul(0x9E37_79B9_7F4A_7C15).rotate_left(29)
}

type Mixing = BuildHasherDefault<Mixed>;

const NONE: u8 = u8::MAX;

/// The hot objects of a split phase, at most 64, in an open table; of an item what can't change in
/// the phase.
struct Hot {
    objects: Vec<Object>,
    items: Vec<Option<(Facts, u32)>>,
    table: [u8; 256],
}

impl Hot {
    fn new() -> Hot {
        Hot {
            objects: Vec::new(),
            items: Vec::new(),
            table: [NONE; 256],
        }
    }

    fn first_place(object: Object) -> usize {
        (mixed(object.key()) >> 56) as usize
    }

    fn push(&mut self, object: Object, item: Option<(Facts, u32)>) {
        let mut place = Hot::first_place(object);
        while self.table[place] != NONE {
            place = (place + 1) % self.table.len();
        }
        self.table[place] = self.objects.len() as u8;
        self.objects.push(object);
        self.items.push(item);
    }

    #[inline]
    fn find(&self, object: Object) -> Option<usize> {
        let mut place = Hot::first_place(object);
        while self.table[place] != NONE {
            let found = usize::from(self.table[place]);
            if self.objects[found] == object {
                return Some(found);
            }
            place = (place + 1) % self.table.len();
        }
        None
    }
}

/// A worker in a run by phases: how far it is in its script, what waits, its slices.
struct Hand<'a> {
    me: Worker,
    store: Locked,
    script: &'a [Request],
    next: usize,
    stash: Vec<u32>,
    slices: Vec<Slice>,
}

impl Hand<'_> {
    /// How many requests of its script a phase gives it.
    fn left(&self, quota: u32) -> usize {
        (quota as usize).min(self.script.len() - self.next)
    }

    /// The request at a place of what it is to perform: first comes what waits.
    fn request_at(&self, place: usize, quota: u32) -> Option<&Request> {
        match place.checked_sub(self.stash.len()) {
            None => self.script.get(self.stash[place] as usize),
            Some(given) if given < self.left(quota) => self.script.get(self.next + given),
            Some(_) => None,
        }
    }

    fn joined_phase(&mut self, given: Given<'_>) {
        for place in std::mem::take(&mut self.stash) {
            self.perform::<true>(given, place as usize);
        }
        let end = self.next + self.left(given.options.joined);
        for place in self.next..end {
            self.perform::<true>(given, place);
        }
        self.next = end;
    }

    fn split_phase(&mut self, given: Given<'_>, hot: &Hot) {
        self.slices.clear();
        self.slices
            .extend(hot.objects.iter().map(|object| Slice::new(*object)));
        let end = self.next + self.left(given.options.split);
        for place in self.next..end {
            let request = self.script[place];
            match self.perform_hot(given, hot, &request) {
                Split::Done(reply) => self.me.replies[place] = reply,
                Split::Waits => self.stash.push(place as u32),
                Split::Cold => self.perform::<false>(given, place),
            }
        }
        self.next = end;
    }

    #[inline]
    fn perform<const TRACK: bool>(&mut self, given: Given<'_>, place: usize) {
        let request = &self.script[place];
        let reply = perform::<Locked, TRACK>(&mut self.me, &mut self.store, given, request);
        self.me.replies[place] = reply;
    }

    /// A request in a split phase, where it touches a hot object.
    #[inline]
    fn perform_hot(&mut self, given: Given<'_>, hot: &Hot, request: &Request) -> Split {
        if hot.objects.is_empty() || number_refusal(given, request).is_some() {
            return Split::Cold;
        }
        match *request {
            Request::Bid {
                bidder,
                item,
                amount,
                time,
            } => match hot.find(Object::Item(item)) {
                None => Split::Cold,
                Some(place) => Split::Done(self.bid_hot(
                    hot,
                    place,
                    BidEntry {
                        amount,
                        time,
                        id: self.me.next_id(1),
                        bidder,
                    },
                )),
            },
            Request::Item(new) => {
                let new = &given.items[new as usize];
                match hot.find(Object::Category(new.facts.category)) {
                    None => Split::Cold,
                    Some(place) => Split::Done(self.item_hot(place, new)),
                }
            }
            Request::Comment {
                about, item, stars, ..
            } => self.comment_hot(hot, about, item, stars),
            Request::Buy { item, .. } | Request::ViewItem(item) | Request::ViewBids(item) => {
                waits(hot, Object::Item(item))
            }
            Request::ViewCategory(category) => waits(hot, Object::Category(category)),
            Request::ViewUser(user) => waits(hot, Object::User(user)),
        }
    }

    fn bid_hot(&mut self, hot: &Hot, place: usize, entry: BidEntry) -> Reply {
        let seen = hot.items[place]
            .as_ref()
            .map(|(facts, left)| (facts, *left));
        if let Some(refusal) = bid_refusal(seen, entry.amount, entry.time) {
            return Reply::Refused(refusal);
        }
        if let Slice::Item(bids) = &mut self.slices[place] {
            bids.count += 1;
            bids.top.insert(entry);
        }
        Reply::Bid(self.me.count(1))
    }

    fn item_hot(&mut self, place: usize, new: &NewItem) -> Reply {
        let id = self.me.next_id(0);
        store_item(&self.me, &mut self.store, &new.facts, None);
        if let Slice::Category(top) = &mut self.slices[place] {
            top.insert(ItemEntry { time: new.time, id });
        }
        Reply::Item(self.me.count(0))
    }

    fn comment_hot(&mut self, hot: &Hot, about: u32, item: Id, stars: i8) -> Split {
        let (hot_item, hot_user) = (hot.find(Object::Item(item)), hot.find(Object::User(about)));
        if hot_item.is_none() && hot_user.is_none() {
            return Split::Cold;
        }
        let shards = self.store.shards();
        let own = Object::Item(item).shard(shards);
        if hot_item.is_none()
            && !self
                .store
                .with(own, own, |shard, _| shard.item(item, shards).is_some())
        {
            return Split::Done(Reply::Refused(Refusal::NoSuchItem));
        }
        if let Some(Slice::User(user)) = hot_user.map(|place| &mut self.slices[place]) {
            user.rating += i64::from(stars);
            user.comments += 1;
        } else {
            let other = Object::User(about).shard(shards);
            self.store
                .with(other, other, |shard, _| rate(shard, shards, about, stars));
        }
        Split::Done(Reply::Comment(self.me.count(2)))
    }
}

enum Split {
    Done(Reply),
    Waits,
    /// It touches nothing hot.
    Cold,
}

fn waits(hot: &Hot, object: Object) -> Split {
    if hot.find(object).is_some() {
        Split::Waits
    } else {
        Split::Cold
    }
}

/// What was written most in a joined phase.
fn choose(hands: &mut [Hand<'_>], given: Given<'_>) -> Hot {
    let mut counts: HashMap<Object, u32, Mixing> = HashMap::default();
    for hand in hands.iter_mut() {
        let written = hand.me.written.drain(..);
        if given.options.hot > 0 {
            written.for_each(|object| *counts.entry(object).or_default() += 1);
        }
    }
    let mut ranked: Vec<(u32, Object)> = counts
        .into_iter()
        .filter(|(_, count)| *count >= given.options.threshold)
        .map(|(object, count)| (u32::MAX - count, object))
        .collect();
    ranked.sort_unstable();
    ranked.truncate(given.options.hot as usize);
    let mut hot = Hot::new();
    for (_, object) in ranked {
        hot.push(object, fixed(&mut hands[0].store, object));
    }
    hot
}

/// Of an item its facts and how many are left.
fn fixed(store: &mut Locked, object: Object) -> Option<(Facts, u32)> {
    let Object::Item(item) = object else {
        return None;
    };
    let shards = store.shards();
    let own = object.shard(shards);
    store.with(own, own, |shard, _| {
        shard.item(item, shards).map(|row| (row.facts, row.left))
    })
}

/// Brings the slices of a split phase into the fields.
fn merge(hands: &mut [Hand<'_>], hot: &Hot) {
    for (place, object) in hot.objects.iter().enumerate() {
        let slices: Vec<Slice> = hands.iter().map(|hand| hand.slices[place]).collect();
        let store = &mut hands[0].store;
        let shards = store.shards();
        let own = object.shard(shards);
        store.with(own, own, |shard, _| {
            slices
                .iter()
                .for_each(|slice| merge_slice(shard, shards, *object, slice))
        });
    }
}

fn merge_slice(shard: &mut Shard, shards: u32, object: Object, slice: &Slice) {
    match (object, slice) {
        (Object::Item(item), Slice::Item(bids)) => {
            if let Some(row) = shard.item(item, shards) {
                row.bids.count += bids.count;
                row.bids.top.merge(&bids.top);
            }
        }
        (Object::User(number), Slice::User(part)) => {
            let user = &mut shard.users[(number / shards) as usize];
            user.rating += part.rating;
            user.comments += part.comments;
        }
        (Object::Category(number), Slice::Category(part)) => {
            shard.categories[(number / shards) as usize].merge(part);
        }
        _ => unreachable!("a slice is of its object's kind"),
    }
}

/// With at most so many requests per worker, one thread does a phase as soon as several.
const SHORT: usize = 128;

/// About so many requests of a longer phase are looked at, so many in a row: scripts may have a
/// period.
const LOOKS: usize = 64;
const IN_A_ROW: usize = 8;

/// Whether one thread does a phase as soon as several: it is short, or at least half of its
/// requests take one shard, as far as some of them tell. A hot object takes none.
fn is_for_one_thread(hands: &[Hand<'_>], given: Given<'_>, quota: u32, hot: Option<&Hot>) -> bool {
    let requests: usize = hands
        .iter()
        .map(|hand| hand.stash.len() + hand.left(quota))
        .sum();
    let Some(shards) = hands.first().map(|hand| hand.store.shards()) else {
        return true;
    };
    if requests <= SHORT * hands.len() {
        return true;
    }
    let stride = requests / (LOOKS / IN_A_ROW);
    let mut looked_at = 0;
    let mut taking = vec![0; shards as usize];
    for hand in hands {
        let places = (0..LOOKS).map(|look| look / IN_A_ROW * stride + look % IN_A_ROW);
        for request in places.map_while(|place| hand.request_at(place, quota)) {
            looked_at += 1;
            let object = first_touched(given, request);
            if hot.and_then(|hot| hot.find(object)).is_none() {
                taking[object.shard(shards) as usize] += 1;
            }
        }
    }
    taking.iter().any(|taking| 2 * taking >= looked_at)
}

/// The object that a request touches, of two the first.
fn first_touched(given: Given<'_>, request: &Request) -> Object {
    match *request {
        Request::Item(new) => Object::Category(given.items[new as usize].facts.category),
        Request::Bid { item, .. }
        | Request::Comment { item, .. }
        | Request::Buy { item, .. }
        | Request::ViewItem(item)
        | Request::ViewBids(item) => Object::Item(item),
        Request::ViewCategory(category) => Object::Category(category),
        Request::ViewUser(user) => Object::User(user),
    }
}

/// Does a phase of every worker: each in a thread, or one after the other.
fn each_hand<'a>(hands: &mut [Hand<'a>], in_turn: bool, act: impl Fn(&mut Hand<'a>) + Sync) {
    let Some((first, others)) = hands.split_first_mut() else {
        return;
    };
    if in_turn {
        act(first);
        others.iter_mut().for_each(act);
        return;
    }
    std::thread::scope(|scope| {
        for hand in others {
            scope.spawn(|| act(hand));
        }
        act(first);
    });
}

pub fn run_phases(
    workers: Vec<Worker>,
    store: Locked,
    scripts: &[Vec<Request>],
    given: Given<'_>,
) -> Vec<Worker> {
    let pairs = workers.into_iter().zip(scripts);
    let mut hands: Vec<Hand<'_>> = pairs
        .map(|(me, script)| Hand {
            me,
            store: store.clone(),
            script,
            next: 0,
            stash: Vec::new(),
            slices: Vec::new(),
        })
        .collect();
    while hands
        .iter()
        .any(|hand| hand.next < hand.script.len() || !hand.stash.is_empty())
    {
        let in_turn = is_for_one_thread(&hands, given, given.options.joined, None);
        each_hand(&mut hands, in_turn, |hand| hand.joined_phase(given));
        let hot = choose(&mut hands, given);
        let in_turn = is_for_one_thread(&hands, given, given.options.split, Some(&hot));
        each_hand(&mut hands, in_turn, |hand| hand.split_phase(given, &hot));
        merge(&mut hands, &hot);
    }
    hands.into_iter().map(|hand| hand.me).collect()
}

pub fn run_locked(
    mut workers: Vec<Worker>,
    store: Locked,
    scripts: &[Vec<Request>],
    given: Given<'_>,
) -> Vec<Worker> {
    let Some((first, others)) = workers.split_first_mut() else {
        return workers;
    };
    let act = |me: &mut Worker, script: &[Request]| {
        let mut store = store.clone();
        for (place, request) in script.iter().enumerate() {
            me.replies[place] = perform::<Locked, false>(me, &mut store, given, request);
        }
    };
    std::thread::scope(|scope| {
        for (me, script) in others.iter_mut().zip(&scripts[1..]) {
            scope.spawn(|| act(me, script));
        }
        act(first, &scripts[0]);
    });
    workers
}

pub fn run_serial(
    mut workers: Vec<Worker>,
    mut store: Alone,
    scripts: &[Vec<Request>],
    given: Given<'_>,
) -> Vec<Worker> {
    let longest = scripts.iter().map(Vec::len).max().unwrap_or(0);
    for first in (0..longest).step_by(64) {
        for (me, script) in workers.iter_mut().zip(scripts) {
            for place in first..(first + 64).min(script.len()) {
                me.replies[place] = perform::<Alone, false>(me, &mut store, given, &script[place]);
            }
        }
    }
    workers
}
